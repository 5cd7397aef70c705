//! Holds the ported routines, linked as a static library, against the Rust original.

#[path = "../compare/command.rs"]
mod command;
#[allow(dead_code)]
#[path = "../compare/generator.rs"]
mod generator;
#[allow(dead_code)]
#[path = "../compare/known.rs"]
mod known;
mod library;
#[allow(dead_code)]
#[path = "../compare/random.rs"]
mod random;
#[path = "../../rust/spheroidal.rs"]
mod spheroidal;
#[path = "../compare/tally.rs"]
mod tally;

use std::process::ExitCode;

use generator::Generator;
use known::Input;
use library::{
    BesselPlaces, Entries, Places, routines_aswfa, routines_cbk, routines_fill, routines_kmn,
    routines_msta1, routines_msta2, routines_qstar, routines_sckb, routines_sdmn, routines_sphj,
    routines_sphy,
};
use oracle::answer::{self, Build};
use oracle::orders;
use oracle::reading::{coefficient_refusal, highest_order, matrix_terms, refusal};
use oracle::record::{Kind, Record, Request, hex, same};
use random::Random;
use tally::Tally;

const KNOWN_RECORDS: &str = "tests/oracle/traps.txt";
const DEFAULT_MODES: usize = 20_000;
const DEFAULT_SEED: u64 = 20_261_115;

/// Where the unaltered Rust follows the power rule too.
const UNALTERED_AT: [f64; 4] = [0.0, -0.0, 1.0, -1.0];

/// What `sphj` asks `msta1` and `msta2` for.
const FIRST_MAGNITUDE: u32 = 200;
const DIGITS: u32 = 15;

/// What every routine is held against, in the order in which the routines need each other.
struct Tallies {
    matrix: Tally,
    sdmn: Tally,
    sckb: Tally,
    aswfa: Tally,
    unaltered_aswfa: Tally,
    kmn: Tally,
    qstar: Tally,
    cbk: Tally,
    msta1: Tally,
    msta2: Tally,
    sphj: Tally,
    sphy: Tally,
    coefficients: Tally,
}

fn main() -> ExitCode {
    let Some((count, seed)) = command::count_and_seed("routines", DEFAULT_MODES, DEFAULT_SEED) else {
        return ExitCode::from(2);
    };
    println!("{count} modes of fresh records, seed {seed}, and those of {KNOWN_RECORDS}");
    let mut tallies = Tallies {
        matrix: Tally::new("matrix entries"),
        sdmn: Tally::new("sdmn"),
        sckb: Tally::new("sckb"),
        aswfa: Tally::new("aswfa by the power rule"),
        unaltered_aswfa: Tally::new("aswfa unaltered, at 0 and 1"),
        kmn: Tally::new("kmn"),
        qstar: Tally::new("qstar"),
        cbk: Tally::new("cbk"),
        msta1: Tally::new("msta1"),
        msta2: Tally::new("msta2"),
        sphj: Tally::new("sphj"),
        sphy: Tally::new("sphy"),
        coefficients: Tally::new("coefficients, refusals included"),
    };
    let Ok(known) = known_records() else {
        eprintln!("routines: {KNOWN_RECORDS} could not be read, so nothing was compared");
        return ExitCode::from(2);
    };
    for record in &known {
        tallies.compare_coefficients(record);
        if let Some(kind) = accepted(record) {
            tallies.compare_mode(kind, record);
        }
    }
    tallies.compare_matrices(count, seed);
    tallies.compare_orders(count, seed);
    let mut generator = Generator::new(seed);
    let mut compared = 0;
    while compared < count {
        for record in generator.records(1000) {
            if compared < count {
                tallies.compare_coefficients(&record);
            }
            if let Some(kind) = accepted(&record).filter(|_| compared < count) {
                tallies.compare_mode(kind, &record);
                compared += 1;
            }
        }
    }
    tallies.report()
}

fn known_records() -> Result<Vec<Record>, String> {
    let text = std::fs::read_to_string(KNOWN_RECORDS).map_err(|error| error.to_string())?;
    let records = known::parse(&text)?.into_iter().filter_map(|known| match known.input {
        Input::Record(record) => Some(record),
        _ => None,
    });
    Ok(records.collect())
}

/// The kind of a mode whose coefficients document 01 hands out.
fn accepted(record: &Record) -> Option<Kind> {
    let request = Request::of_operation(record.operation).filter(|request| !request.is_row())?;
    let refused = coefficient_refusal(record, request).is_some();
    (!refused).then(|| request.kind())
}

impl Tallies {
    fn compare_mode(&mut self, kind: Kind, record: &Record) {
        let (m, n) = (u32::from(record.m), u32::from(record.n));
        let kd = f64::from(kind.sign());
        let mut df = [0.0; 200];
        routines_sdmn(m, n, record.c, record.cv, kd, &mut df);
        compare(&mut self.sdmn, record, &df, &answer::sdmn(kind, record));
        let mut ck = [0.0; 200];
        routines_sckb(&df, m, n, record.c, &mut ck);
        compare(&mut self.sckb, record, &ck, &answer::sckb(record, &df));
        for x in [record.x, -record.x] {
            compare_pair(&mut self.aswfa, Build::PowerRule, kind, record, x);
        }
        for x in UNALTERED_AT {
            compare_pair(&mut self.aswfa, Build::PowerRule, kind, record, x);
            compare_pair(&mut self.unaltered_aswfa, Build::Unaltered, kind, record, x);
        }
        if coefficient_refusal(record, Request::Radial).is_none() {
            self.compare_disc(record, &df, &ck);
        }
        let radial = Request::of_operation(record.operation).is_some_and(Request::is_radial);
        if radial && record.x > 0.0 && refusal(record).is_none() {
            self.compare_off_disc(record);
        }
    }

    /// The Bessel functions of an accepted record of operation 5 or 8, up to the order that `rmn1` and
    /// `rmn2l` ask for and to others.
    fn compare_off_disc(&mut self, record: &Record) {
        let Record { m, n, c, x, .. } = *record;
        let highest = highest_order(m, n, c);
        for order in [highest, 2, 251] {
            let (mut sy, mut dy) = ([0.0; 252], [0.0; 252]);
            let ours = routines_sphy(c * x, order as u32, &mut sy, &mut dy);
            let theirs = answer::sphy(Build::PowerRule, c * x, order);
            compare_bessel(&mut self.sphy, record, (ours, sy, dy), theirs);
            if c * x >= 1e-100 && orders::search(c * x, order).is_err() {
                continue;
            }
            let (mut sj, mut dj) = ([0.0; 252], [0.0; 252]);
            let ours = routines_sphj(c * x, order as u32, &mut sj, &mut dj);
            let theirs = answer::sphj(Build::PowerRule, c * x, order);
            compare_bessel(&mut self.sphj, record, (ours, sj, dj), theirs);
        }
    }

    /// Matrices of both parities, every place of them. Four in five have an order up to 4: up to 3 a's
    /// factors come from a table, and few rows show a wrong one past the first 200 entries.
    fn compare_matrices(&mut self, count: usize, seed: u64) {
        let mut random = Random::new(seed);
        for at in 0..count / 10 {
            let m = match at % 5 {
                0 => random.between(5, 199),
                _ => random.between(0, 4),
            };
            let entries = match at % 3 {
                0 => random.between(1, 300),
                1 => random.between(195, 210),
                _ => 300,
            };
            let c = random.log_uniform(1e-10, 290.0);
            for cs in [c * c, -c * c] {
                for parity in 0..2 {
                    self.compare_matrix(m.into(), parity, cs, entries.into());
                }
            }
        }
    }

    fn compare_matrix(&mut self, m: u32, parity: u32, cs: f64, entries: u32) {
        let terms = |entry: u32| matrix_terms(m.into(), (2 * entry + parity).into(), cs);
        let [mut d, mut e]: [Entries; 2] = [[0.0; 300]; 2];
        for entry in 0..entries {
            let (_, diagonal, g) = terms(entry);
            d[entry as usize] = diagonal;
            if entry > 0 {
                let (a, ..) = terms(entry - 1);
                e[entry as usize] = (a * g).sqrt();
            }
        }
        let [mut our_d, mut our_e]: [Entries; 2] = [[7.5; 300]; 2];
        routines_fill(m, parity, cs, entries, &mut our_d, &mut our_e);
        for (ours, theirs) in [(our_d, d), (our_e, e)] {
            let other = (0..300).find(|&at| !same(ours[at], theirs[at]));
            self.matrix.count(other.is_none(), || {
                format!("m {m} parity {parity} cs {cs:?} entries {entries}: place {other:?}")
            });
        }
    }

    /// Arguments that operation 8 accepts, and as many that lead to other trial orders, for which the
    /// answer is 0.
    fn compare_orders(&mut self, count: usize, seed: u64) {
        let mut random = Random::new(seed);
        for at in 0..count {
            let x = match at % 4 {
                0 => random.log_uniform(1e-100, 200.0),
                1 => 200.0 * random.unit() + 1e-100,
                2 => random.log_uniform(1e-300, 1e-90),
                _ => random.log_uniform(1e2, 1e10),
            };
            let n = random.between(1, 251);
            let order = match orders::msta1(x, FIRST_MAGNITUDE as i32) {
                Ok(_) => answer::msta1(Build::PowerRule, x, FIRST_MAGNITUDE as i32),
                Err(_) => 0,
            };
            let ours = routines_msta1(x, FIRST_MAGNITUDE);
            self.msta1.count(i64::from(ours) == i64::from(order), || {
                format!("x {x:?}: ours {ours} Rust {order}")
            });
            let order = match orders::msta2(x, i32::from(n), DIGITS as i32) {
                Ok(_) => answer::msta2(Build::PowerRule, x, i32::from(n), DIGITS as i32),
                Err(_) => 0,
            };
            let ours = routines_msta2(x, u32::from(n), DIGITS);
            self.msta2.count(i64::from(ours) == i64::from(order), || {
                format!("x {x:?} n {n}: ours {ours} Rust {order}")
            });
        }
    }

    /// The routines of the disc, on the coefficients of either kind: those of a prolate mode are as
    /// good a test as any.
    fn compare_disc(&mut self, record: &Record, df: &Places, ck: &Places) {
        let (m, n, c) = (u32::from(record.m), u32::from(record.n), record.c);
        let ck1 = routines_kmn(df, m, n, c);
        compare(&mut self.kmn, record, &[ck1], &[answer::kmn(record, df)]);
        let [mut qs, mut qt] = [0.0; 2];
        routines_qstar(ck, m, n, c, ck1, &mut qs, &mut qt);
        compare(&mut self.qstar, record, &[qs, qt], &answer::qstar(record, ck1, ck));
        let mut bk = [0.0; 200];
        routines_cbk(ck, m, n, c, record.cv, qt, &mut bk);
        compare(&mut self.cbk, record, &bk, &answer::cbk(record, qt, ck));
    }

    /// The library's call, on slices that are too short, of 200 places and longer: the refusal or
    /// the coefficients, and every place that is not to be written.
    fn compare_coefficients(&mut self, record: &Record) {
        let Some(request) = Request::of_operation(record.operation) else {
            return;
        };
        let kind = request.kind();
        let refusal = coefficient_refusal(record, Request::Angular(kind));
        for length in [199, 200, 203] {
            let mut values = vec![7.5; length];
            let number = coefficients(kind, record, &mut values);
            let mut expected = vec![7.5; length];
            let refusal = refusal.or((length < 200).then_some(9));
            if refusal.is_none() {
                expected[..200].copy_from_slice(&answer::sdmn(kind, record));
            }
            let right = number == refusal.unwrap_or(0)
                && values.iter().zip(&expected).all(|(&ours, &theirs)| same(ours, theirs));
            self.coefficients
                .count(right, || format!("{record}: {length} places, answer {number}"));
        }
    }

    fn report(&self) -> ExitCode {
        command::report(&[
            &self.matrix,
            &self.sdmn,
            &self.sckb,
            &self.aswfa,
            &self.unaltered_aswfa,
            &self.kmn,
            &self.qstar,
            &self.cbk,
            &self.msta1,
            &self.msta2,
            &self.sphj,
            &self.sphy,
            &self.coefficients,
        ])
    }
}

/// One comparison is one call with all its places.
fn compare(tally: &mut Tally, record: &Record, ours: &[f64], theirs: &[f64]) {
    let differs = (0..ours.len()).find(|&at| !same(ours[at], theirs[at]));
    tally.count(differs.is_none(), || {
        let at = differs.unwrap_or(0);
        format!("{record}: place {at} ours {} Rust {}", hex(ours[at]), hex(theirs[at]))
    });
}

/// The highest order, the functions and their derivatives, with the places above that order.
fn compare_bessel(
    tally: &mut Tally,
    record: &Record,
    (ours, values, derivatives): (u32, BesselPlaces, BesselPlaces),
    (theirs, rust_values, rust_derivatives): (i32, BesselPlaces, BesselPlaces),
) {
    let (ours, theirs) = (f64::from(ours), f64::from(theirs));
    let ours = [&[ours], &values[..], &derivatives[..]].concat();
    let theirs = [&[theirs], &rust_values[..], &rust_derivatives[..]].concat();
    compare(tally, record, &ours, &theirs);
}

/// The refusal's number, or 0.
fn coefficients(kind: Kind, record: &Record, values: &mut [f64]) -> u8 {
    let Record { m, n, c, cv, .. } = *record;
    let kind = match kind {
        Kind::Prolate => spheroidal::Kind::Prolate,
        Kind::Oblate => spheroidal::Kind::Oblate,
    };
    spheroidal::coefficients_into(kind, spheroidal::Mode { m, n, c }, cv, values)
        .map_or_else(spheroidal::Refusal::number, |()| 0)
}

/// The pair at x, which need not be the record's: the routine is defined for every x.
fn compare_pair(tally: &mut Tally, build: Build, kind: Kind, record: &Record, x: f64) {
    let (m, n) = (u32::from(record.m), u32::from(record.n));
    let kd = f64::from(kind.sign());
    let [mut value, mut derivative] = [0.0; 2];
    routines_aswfa(m, n, record.c, record.cv, kd, x, &mut value, &mut derivative);
    let theirs = answer::aswfa(build, kind, record, x);
    compare(tally, record, &[value, derivative], &theirs);
}
