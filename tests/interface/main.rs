//! Holds the Rust wrapper, `rust/spheroidal.rs`, against the oracle on fresh records.

#[allow(dead_code)]
#[path = "../compare/generator.rs"]
mod generator;
#[allow(dead_code)]
#[path = "../compare/known.rs"]
mod known;
#[allow(dead_code)]
#[path = "../compare/random.rs"]
mod random;
#[path = "../../rust/spheroidal.rs"]
mod spheroidal;
#[path = "../compare/tally.rs"]
mod tally;

use std::process::ExitCode;

use generator::Generator;
use known::Input;
use oracle::answer::{self, Build};
use oracle::reading::{coefficient_refusal, needed_allowance};
use oracle::record::{self, Record, Request, hex, same};
use spheroidal::{Kind, Mode, ModeValue, Pair, Radial, Refusal};
use tally::Tally;

const KNOWN_RECORDS: &str = "tests/oracle/traps.txt";
const DEFAULT_RECORDS: usize = 20_000;
const DEFAULT_SEED: u64 = 20_261_115;
const STREAM: usize = 1000;

/// What lent places hold beforehand.
const OLD: f64 = -7.5;
const OLD_STEPS: u32 = 3_559_904_305;
const OLD_BYTE: u8 = 165;

struct Tallies {
    answers: Tally,
    row_slices: Tally,
    dlmf_slices: Tally,
    zero_pivots: Tally,
    coefficients: Tally,
    sheets: Tally,
    errors: Tally,
}

fn main() -> ExitCode {
    let words: Vec<String> = std::env::args().skip(1).collect();
    let numbers: Option<Vec<u64>> = words.iter().map(|word| word.parse().ok()).collect();
    let Some(numbers) = numbers.filter(|numbers| numbers.len() <= 2) else {
        eprintln!("usage: interface [N] [SEED]");
        return ExitCode::from(2);
    };
    let count = numbers
        .first()
        .map_or(DEFAULT_RECORDS, |&count| count as usize);
    let seed = numbers.get(1).copied().unwrap_or(DEFAULT_SEED);
    let Ok(known) = known_records() else {
        eprintln!("interface: {KNOWN_RECORDS} could not be read, so nothing was compared");
        return ExitCode::from(2);
    };
    let mut tallies = Tallies {
        answers: Tally::new("wrapper, the oracle's lines"),
        row_slices: Tally::new("wrapper, slices of rows"),
        dlmf_slices: Tally::new("wrapper, slices of DLMF rows"),
        zero_pivots: Tally::new("wrapper, known zero pivots"),
        coefficients: Tally::new("wrapper, coefficients"),
        sheets: Tally::new("wrapper, sheets"),
        errors: Tally::new("wrapper, errors"),
    };
    tallies.check_errors();
    tallies.check_zero_pivots();
    tallies.check_largest_sheets();
    let records = [with_allowances(), known].concat();
    records.iter().for_each(|record| tallies.compare(record));
    let mut generator = Generator::new(seed);
    let mut left = count;
    while left > 0 {
        let records = generator.records(left.min(STREAM));
        left -= records.len();
        records.iter().for_each(|record| tallies.compare(record));
        sheets_of(&records)
            .iter()
            .for_each(|sheet| tallies.compare_sheet(sheet));
    }
    tallies.report()
}

fn known_records() -> Result<Vec<Record>, String> {
    let text = std::fs::read_to_string(KNOWN_RECORDS).map_err(|error| error.to_string())?;
    let records = known::parse(&text)?
        .into_iter()
        .filter_map(|known| match known.input {
            Input::Record(record) => Some(record),
            Input::Stream(_) => None,
        });
    Ok(records.collect())
}

/// Rows of each operation with the allowance that they need, and with some that would be too small in
/// 16 bits or with a sign.
fn with_allowances() -> Vec<Record> {
    let mut records = Vec::new();
    for (m, n, c) in [(0, 0, 1.0), (0, 3, 2.5), (0, 2, 1e-10), (3, 9, 20.0)] {
        for operation in [1, 2, 6, 7] {
            let request = Request::of_operation(operation).expect("a row");
            let needed = needed_allowance(request.kind(), m, n, c);
            let above = (1 << 16) + needed - 1;
            for allowance in [needed - 1, needed, 1 << 16, above, 1 << 31, u32::MAX] {
                records.push(Record {
                    operation,
                    m,
                    n,
                    allowance,
                    c,
                    cv: 0.0,
                    x: 0.0,
                });
            }
        }
    }
    records
}

fn kind_of(request: Request) -> Kind {
    match request.kind() {
        record::Kind::Prolate => Kind::Prolate,
        record::Kind::Oblate => Kind::Oblate,
    }
}

fn mode_of(record: &Record) -> Mode {
    let Record { m, n, c, .. } = *record;
    Mode { m, n, c }
}

/// The wrapper's answer as the lines of record 0.
fn lines(record: &Record, request: Request) -> String {
    let (kind, mode) = (kind_of(request), mode_of(record));
    let Record {
        m,
        n,
        allowance,
        cv,
        x,
        ..
    } = *record;
    let answer = match request {
        Request::Row(_) => spheroidal::row(kind, mode, allowance).map(|row| {
            let line = |(at, place): (u16, &ModeValue)| {
                let ModeValue {
                    value,
                    steps,
                    lower,
                    upper,
                    substituted,
                } = *place;
                let [value, lower, upper] = [value, lower, upper].map(hex);
                let substituted = u8::from(substituted);
                format!("V 0 {at} {steps} {value} {lower} {upper}\nZ 0 {at} {substituted}\n")
            };
            (m..).zip(&row).map(line).collect()
        }),
        Request::DlmfRow(_) => spheroidal::dlmf_row(kind, mode, allowance).map(|row| {
            let line = |(at, value): (u16, &f64)| format!("D 0 {at} {}\n", hex(*value));
            (m..).zip(&row).map(line).collect()
        }),
        Request::Angular(_) => spheroidal::angular(kind, mode, cv, x)
            .map(|pair| format!("A 0 {m} {n} {}\n", pair_words(pair))),
        Request::Radial => spheroidal::radial(mode, cv, x).map(|Radial { first, second }| {
            format!("F 0 {m} {n} {} {}\n", pair_words(first), pair_words(second))
        }),
        Request::FirstKind => spheroidal::first_kind(mode, cv, x)
            .map(|pair| format!("G 0 {m} {n} {}\n", pair_words(pair))),
    };
    answer.unwrap_or_else(|refusal| format!("R 0 {}\n", refusal.number()))
}

fn pair_words(Pair { value, derivative }: Pair) -> String {
    format!("{} {}", hex(value), hex(derivative))
}

const ROW_SLICES: usize = 5;

/// The slices of a row.
#[derive(Clone)]
struct Lent {
    values: Vec<f64>,
    steps: Vec<u32>,
    lowers: Vec<f64>,
    uppers: Vec<f64>,
    substituted: Vec<u8>,
}

impl Lent {
    fn new(lengths: [usize; ROW_SLICES]) -> Lent {
        Lent {
            values: vec![OLD; lengths[0]],
            steps: vec![OLD_STEPS; lengths[1]],
            lowers: vec![OLD; lengths[2]],
            uppers: vec![OLD; lengths[3]],
            substituted: vec![OLD_BYTE; lengths[4]],
        }
    }

    fn put(&mut self, row: &[ModeValue]) {
        for (at, place) in row.iter().enumerate() {
            self.values[at] = place.value;
            self.steps[at] = place.steps;
            self.lowers[at] = place.lower;
            self.uppers[at] = place.upper;
            self.substituted[at] = u8::from(place.substituted);
        }
    }

    fn same(&self, other: &Lent) -> bool {
        all_same(&self.values, &other.values)
            && self.steps == other.steps
            && all_same(&self.lowers, &other.lowers)
            && all_same(&self.uppers, &other.uppers)
            && self.substituted == other.substituted
    }
}

fn all_same(left: &[f64], right: &[f64]) -> bool {
    left.len() == right.len()
        && left
            .iter()
            .zip(right)
            .all(|(&left, &right)| same(left, right))
}

/// The refusal where a slice is too short: 9, unless an earlier one applies.
fn if_short<T>(answer: &Result<T, Refusal>) -> Refusal {
    match answer {
        Err(refusal) if refusal.number() < Refusal::Buffer.number() => *refusal,
        _ => Refusal::Buffer,
    }
}

#[derive(Debug)]
struct Sheet {
    kind: Kind,
    m: u16,
    n: u16,
    allowance: u32,
    cs: Vec<f64>,
    xs: Vec<f64>,
}

/// Sheets of a row's mode, with its c and the next rows', at the x of some angular records; none has a
/// longer list than is allowed.
fn sheets_of(records: &[Record]) -> Vec<Sheet> {
    let request = |record: &Record| Request::of_operation(record.operation);
    let is_row = |record: &&Record| request(record).is_some_and(Request::is_row);
    let is_angular = |record: &&Record| matches!(request(record), Some(Request::Angular(_)));
    let rows: Vec<&Record> = records.iter().filter(is_row).collect();
    let mut xs = records.iter().filter(is_angular).map(|record| record.x);
    let sheet = |(at, rows): (usize, &[&Record])| Sheet {
        kind: kind_of(request(rows[0]).expect("a row")),
        m: rows[0].m,
        n: rows[0].n,
        allowance: rows[0].allowance,
        cs: rows.iter().take(1 + at % 4).map(|row| row.c).collect(),
        xs: xs.by_ref().take(at % 6).collect(),
    };
    rows.chunks(4).enumerate().map(sheet).collect()
}

impl Sheet {
    /// What single calls give, for a block that is long enough; they were compared with the oracle.
    fn by_single_calls(&self) -> Result<Vec<f64>, Refusal> {
        let mode = |c| Mode {
            m: self.m,
            n: self.n,
            c,
        };
        let angular = |c, cv, x| spheroidal::angular(self.kind, mode(c), cv, x);
        angular(0.0, 0.0, 0.0)?;
        for &c in &self.cs {
            angular(c, 0.0, 0.0)?;
        }
        for &x in &self.xs {
            angular(0.0, 0.0, x)?;
        }
        let mut cvs = Vec::new();
        for &c in self.cs.iter().filter(|_| !self.xs.is_empty()) {
            let row = spheroidal::row(self.kind, mode(c), self.allowance)?;
            cvs.push((c, row.last().expect("a mode").value));
        }
        let mut block = Vec::new();
        for (c, cv) in cvs {
            for &x in &self.xs {
                let Pair { value, derivative } = angular(c, cv, x)?;
                block.extend([value, derivative]);
            }
        }
        Ok(block)
    }

    fn places(&self) -> usize {
        2 * self.cs.len() * self.xs.len()
    }

    fn into(&self, block: &mut [f64]) -> Result<(), Refusal> {
        let Sheet {
            kind,
            m,
            n,
            allowance,
            ref cs,
            ref xs,
        } = *self;
        spheroidal::sheet_into(kind, m, n, allowance, cs, xs, block)
    }

    fn pairs(&self) -> Result<Vec<Pair>, Refusal> {
        spheroidal::sheet(
            self.kind,
            self.m,
            self.n,
            self.allowance,
            &self.cs,
            &self.xs,
        )
    }
}

impl Tallies {
    fn compare(&mut self, record: &Record) {
        let Some(request) = Request::of_operation(record.operation) else {
            return;
        };
        let theirs = answer::record_lines(Build::PowerRule, 0, record);
        let ours = lines(record, request);
        self.answers.count(ours == theirs, || {
            format!("{record}: ours {ours} oracle {theirs}")
        });
        match request {
            Request::Row(_) => self.compare_row_slices(record, kind_of(request)),
            Request::DlmfRow(_) => self.compare_dlmf_slices(record, kind_of(request)),
            Request::Angular(_) | Request::Radial | Request::FirstKind => {
                self.compare_coefficients(record, request)
            }
        }
    }

    /// Slices just long enough, longer, each too short by one, and empty. What the row holds was
    /// compared with the oracle before.
    fn compare_row_slices(&mut self, record: &Record, kind: Kind) {
        let mode = mode_of(record);
        let row = spheroidal::row(kind, mode, record.allowance);
        let needed = usize::from(mode.n.saturating_sub(mode.m).min(199)) + 1;
        let mut lengths = vec![
            [needed; ROW_SLICES],
            [needed + 5, needed + 1, needed + 2, needed + 3, needed + 4],
            [0; ROW_SLICES],
        ];
        for short in 0..ROW_SLICES {
            let mut five = [needed; ROW_SLICES];
            five[short] -= 1;
            lengths.push(five);
        }
        for lengths in lengths {
            let mut lent = Lent::new(lengths);
            let mut expected = lent.clone();
            let Lent {
                values,
                steps,
                lowers,
                uppers,
                substituted,
            } = &mut lent;
            let answer = spheroidal::row_into(
                kind,
                mode,
                record.allowance,
                values,
                steps,
                lowers,
                uppers,
                substituted,
            );
            let right = if lengths.iter().any(|&length| length < needed) {
                answer == Err(if_short(&row))
            } else {
                expected.put(row.as_deref().unwrap_or_default());
                answer == row.as_ref().map(|_| ()).map_err(|&refusal| refusal)
            };
            self.row_slices.count(right && lent.same(&expected), || {
                format!("{record}: {lengths:?} places, answer {answer:?}")
            });
        }
    }

    fn compare_dlmf_slices(&mut self, record: &Record, kind: Kind) {
        let mode = mode_of(record);
        let row = spheroidal::dlmf_row(kind, mode, record.allowance);
        let needed = usize::from(mode.n.saturating_sub(mode.m).min(199)) + 1;
        for length in [needed, needed + 3, needed - 1] {
            let mut values = vec![OLD; length];
            let mut expected = values.clone();
            let answer = spheroidal::dlmf_row_into(kind, mode, record.allowance, &mut values);
            let right = if length < needed {
                answer == Err(if_short(&row))
            } else {
                let row_places = row.as_deref().unwrap_or_default();
                expected[..row_places.len()].copy_from_slice(row_places);
                answer == row.as_ref().map(|_| ()).map_err(|&refusal| refusal)
            };
            self.dlmf_slices
                .count(right && all_same(&values, &expected), || {
                    format!("{record}: {length} places, answer {answer:?}")
                });
        }
    }

    /// Coefficients of the record's mode, which an angular record's tests but the last decide.
    fn compare_coefficients(&mut self, record: &Record, request: Request) {
        let (kind, mode) = (kind_of(request), mode_of(record));
        let refusal = coefficient_refusal(record, Request::Angular(request.kind()));
        let theirs = match refusal {
            None => Ok(answer::sdmn(request.kind(), record)),
            Some(number) => Err(number),
        };
        let ours = spheroidal::coefficients(kind, mode, record.cv);
        let right = match (&ours, &theirs) {
            (Ok(ours), Ok(theirs)) => all_same(ours, theirs),
            (Err(ours), Err(theirs)) => ours.number() == *theirs,
            _ => false,
        };
        self.coefficients
            .count(right, || format!("{record}: refusal {refusal:?}"));
        for length in [199, 203] {
            let mut values = vec![OLD; length];
            let mut expected = values.clone();
            let answer = spheroidal::coefficients_into(kind, mode, record.cv, &mut values);
            let right = if length < 200 {
                answer == Err(if_short(&ours))
            } else {
                let places = ours.as_ref().map_or(&[][..], |places| &places[..]);
                expected[..places.len()].copy_from_slice(places);
                answer == ours.map(|_| ())
            };
            self.coefficients
                .count(right && all_same(&values, &expected), || {
                    format!("{record}: {length} places, answer {answer:?}")
                });
        }
    }

    /// The sheet itself, and blocks just long enough, longer, one place short and empty.
    fn compare_sheet(&mut self, sheet: &Sheet) {
        let single = sheet.by_single_calls();
        let right = match (&sheet.pairs(), &single) {
            (Ok(pairs), Ok(places)) => {
                let ours: Vec<f64> = pairs
                    .iter()
                    .flat_map(|pair| [pair.value, pair.derivative])
                    .collect();
                all_same(&ours, places)
            }
            (Err(ours), Err(single)) => ours == single,
            _ => false,
        };
        self.sheets
            .count(right, || format!("{sheet:?}: single calls {single:?}"));
        let needed = sheet.places();
        for length in [needed, needed + 3, needed.saturating_sub(1), 0] {
            let mut block = vec![OLD; length];
            let mut expected = block.clone();
            let answer = sheet.into(&mut block);
            let right = match &single {
                // 10 comes after 13
                Ok(_) | Err(Refusal::Allowance) if length < needed => answer == Err(Refusal::Sheet),
                Ok(places) => {
                    expected[..places.len()].copy_from_slice(places);
                    answer == Ok(())
                }
                Err(refusal) => answer == Err(*refusal),
            };
            self.sheets.count(right && all_same(&block, &expected), || {
                format!("{sheet:?}: {length} places, answer {answer:?}")
            });
        }
    }

    /// The wrapper's limits are the library's: the largest sheet of each kind, and lists one too long and
    /// far too long.
    fn check_largest_sheets(&mut self) {
        for kind in [Kind::Prolate, Kind::Oblate] {
            let sheet = |parameters: usize, arguments: usize| Sheet {
                kind,
                m: 0,
                n: 3,
                allowance: u32::MAX,
                cs: (0..parameters).map(|at| at as f64 / 1e4).collect(),
                xs: (0..arguments).map(|at| at as f64 / 1e5).collect(),
            };
            let (most_c, most_x) = (spheroidal::SHEET_PARAMETERS, spheroidal::SHEET_ARGUMENTS);
            let largest = sheet(most_c, most_x);
            self.compare_sheet(&largest);
            let right = largest.places() == spheroidal::SHEET_PLACES;
            self.sheets.count(right, || "the most places".to_string());
            for (parameters, arguments) in [
                (most_c + 1, most_x),
                (most_c, most_x + 1),
                (most_c + 1, 0),
                (0, most_x + 1),
                (100_000, 100_000),
            ] {
                let answer = sheet(parameters, arguments).pairs();
                self.sheets.count(answer == Err(Refusal::Sheet), || {
                    format!("{parameters} c, {arguments} x: {answer:?}")
                });
            }
        }
    }

    /// Each refusal once, as an error with its number and text.
    fn check_errors(&mut self) {
        let mode = |m, n, c| Mode { m, n, c };
        let angular = |mode, cv, x| spheroidal::angular(Kind::Oblate, mode, cv, x).err();
        let radial = |mode, cv, x| spheroidal::radial(mode, cv, x).err();
        let first = |mode, cv, x| spheroidal::first_kind(mode, cv, x).err();
        let refusals = [
            (
                angular(mode(200, 200, 1.0), 0.0, 0.0),
                Refusal::ModeNumbers,
                4,
            ),
            (
                angular(mode(0, 0, -1.0), 0.0, 0.0),
                Refusal::SizeParameter,
                5,
            ),
            (
                angular(mode(0, 0, spheroidal::LIMIT), 0.0, 0.0),
                Refusal::TooLarge,
                6,
            ),
            (
                angular(mode(0, 0, 1.0), f64::NAN, 0.0),
                Refusal::CharacteristicValue,
                7,
            ),
            (angular(mode(0, 0, 1.0), 0.0, 2.0), Refusal::Argument, 8),
            (
                spheroidal::dlmf_row_into(Kind::Oblate, mode(0, 0, 1.0), 9, &mut []).err(),
                Refusal::Buffer,
                9,
            ),
            (
                spheroidal::row(Kind::Oblate, mode(0, 0, 1.0), 0).err(),
                Refusal::Allowance,
                10,
            ),
            (
                spheroidal::sheet(Kind::Oblate, 0, 0, 9, &[1.0; 33], &[0.5]).err(),
                Refusal::Sheet,
                13,
            ),
            (radial(mode(0, 0, 1.0), 0.0, -1.0), Refusal::Argument, 8),
            (
                radial(mode(0, 0, 1.0), 0.0, 2.0 * spheroidal::BESSEL_ARGUMENT),
                Refusal::OffTheDisc,
                11,
            ),
            (first(mode(0, 0, 1.0), 0.0, -1.0), Refusal::Argument, 8),
            (
                first(mode(0, 0, 1.0), 0.0, 2.0 * spheroidal::BESSEL_ARGUMENT),
                Refusal::OffTheDisc,
                11,
            ),
        ];
        for (answer, refusal, number) in refusals {
            let error: Box<dyn std::error::Error + Send + Sync> = Box::new(refusal);
            let text = error
                .to_string()
                .starts_with(&format!("refused {number}: "));
            let right = answer == Some(refusal) && refusal.number() == number && text;
            self.errors
                .count(right, || format!("{refusal:?}: answer {answer:?}, {error}"));
        }
    }

    /// Rows for which it is known in which modes a zero pivot is met, whatever the oracle says.
    fn check_zero_pivots(&mut self) {
        let rows: [(u16, u16, f64, &[bool]); 4] = [
            (0, 2, 1e-5, &[false, true, false]),
            (4, 4, 1e-4, &[true]),
            (0, 2, 1e-10, &[true, false, false]),
            (0, 0, 1e-10, &[false]),
        ];
        for (m, n, c, expected) in rows {
            let mode = Mode { m, n, c };
            let row = spheroidal::row(Kind::Prolate, mode, u32::MAX).unwrap_or_default();
            let found: Vec<bool> = row.iter().map(|place| place.substituted).collect();
            self.zero_pivots.count(found == expected, || {
                format!("{mode:?}: {found:?}, not {expected:?}")
            });
        }
    }

    fn report(&self) -> ExitCode {
        let all = [
            &self.answers,
            &self.row_slices,
            &self.dlmf_slices,
            &self.zero_pivots,
            &self.coefficients,
            &self.sheets,
            &self.errors,
        ];
        all.iter().for_each(|tally| tally.print());
        all.iter().for_each(|tally| tally.print_failures());
        let passed: usize = all.iter().map(|tally| tally.passed).sum();
        let failed: usize = all.iter().map(|tally| tally.failed).sum();
        println!("{passed} passed, {failed} failed");
        if failed == 0 {
            ExitCode::SUCCESS
        } else {
            ExitCode::FAILURE
        }
    }
}
