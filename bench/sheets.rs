//! Times sheets beside the single calls of the same library, after a check that every place is equal
//! bit for bit, and says which targets are met.

#[allow(dead_code)]
#[path = "../tests/sheets/library.rs"]
mod library;
#[allow(dead_code)]
mod measure;

use std::hint::black_box;

use library::spheroidal::{self, Pair, ROW_PLACES};
use measure::{Measured, ROUNDS, seconds, time, verdict};
use oracle::record::{Kind, same};
use oracle::sheet::Sheet;

/// How long the single calls' side of a round takes, about, where one sheet does not take longer.
const ROUND: f64 = 0.005;
/// How long all rounds of that side may take, where the fewest do not take longer.
const ALL_ROUNDS: f64 = 12.0;
const FEWEST_ROUNDS: usize = 5;

/// How many times as fast a full sheet of a small or middle mode is to be.
const TARGET: f64 = 4.0;

/// A mode whose c are spread evenly from one to the other.
struct Mode {
    size: &'static str,
    kind: Kind,
    m: u16,
    n: u16,
    least: f64,
    most: f64,
}

const fn mode(size: &'static str, kind: Kind, m: u16, n: u16, least: f64, most: f64) -> Mode {
    Mode {
        size,
        kind,
        m,
        n,
        least,
        most,
    }
}

const MODES: [Mode; 6] = [
    mode("smallest", Kind::Prolate, 0, 0, 0.5, 1.5),
    mode("small", Kind::Oblate, 0, 5, 2.5, 7.5),
    mode("middle", Kind::Oblate, 0, 40, 10.0, 30.0),
    mode("middle", Kind::Prolate, 20, 60, 15.0, 45.0),
    mode("largest", Kind::Prolate, 0, 199, 35.0, 75.0),
    mode("largest", Kind::Oblate, 199, 398, 35.0, 75.0),
];

/// Of c and of x.
const LENGTHS: [(usize, usize); 3] = [(32, 64), (4, 8), (1, 1)];

impl Mode {
    fn name(&self) -> String {
        let kind = format!("{:?}", self.kind).to_lowercase();
        let Mode {
            m, n, least, most, ..
        } = self;
        format!("{kind} m {m} n {n} c {least} to {most}")
    }

    /// Sheets of one round. Their c differ in the sixth digit: with the same ones in all, the
    /// processor's branch prediction would learn a small sheet by heart.
    fn sheets(&self, parameters: usize, arguments: usize) -> Vec<Sheet> {
        let count = match self.size {
            "smallest" | "small" => 1024 / parameters,
            _ => 64 / parameters,
        };
        let sheet = |at: usize| {
            let scale = 1.0 + at as f64 * 1e-6;
            let cs = spread(self.least, self.most, parameters);
            Sheet {
                kind: self.kind,
                m: self.m,
                n: self.n,
                allowance: u32::MAX,
                cs: cs.into_iter().map(|c| c * scale).collect(),
                xs: spread(-1.0, 1.0, arguments),
            }
        };
        (0..count).map(sheet).collect()
    }
}

/// Evenly from one end to the other; a single one is not in the middle, where x is zero.
fn spread(least: f64, most: f64, count: usize) -> Vec<f64> {
    let share = |at: usize| match count {
        1 => 0.65,
        _ => at as f64 / (count - 1) as f64,
    };
    (0..count)
        .map(|at| least + (most - least) * share(at))
        .collect()
}

/// The ways to fill a block with the pairs of a sheet.
type Way = fn(&Sheet, &mut [f64]);

fn by_sheet(sheet: &Sheet, block: &mut [f64]) {
    let number = library::sheet(sheet, block);
    assert_eq!(number, 0, "{sheet}");
}

/// For each pair a row and an angular call.
fn pair_by_pair(sheet: &Sheet, block: &mut [f64]) {
    let mut places = block.chunks_exact_mut(2);
    for &c in &sheet.cs {
        for (&x, place) in sheet.xs.iter().zip(&mut places) {
            let cv = value_at_n(sheet, c);
            place.copy_from_slice(&angular(sheet, c, cv, x));
        }
    }
}

/// A row for each c, whose value the caller keeps, and an angular call for each pair.
fn with_rows_kept(sheet: &Sheet, block: &mut [f64]) {
    let mut places = block.chunks_exact_mut(2);
    for &c in &sheet.cs {
        let cv = value_at_n(sheet, c);
        for (&x, place) in sheet.xs.iter().zip(&mut places) {
            place.copy_from_slice(&angular(sheet, c, cv, x));
        }
    }
}

/// The rows of a sheet without its pairs.
fn rows_alone(sheet: &Sheet, block: &mut [f64]) {
    for (&c, place) in sheet.cs.iter().zip(block) {
        *place = value_at_n(sheet, c);
    }
}

/// By slices just long enough, so that no place is made that is not needed.
fn value_at_n(sheet: &Sheet, c: f64) -> f64 {
    let count = usize::from(sheet.n - sheet.m) + 1;
    let [mut values, mut lowers, mut uppers] = [[0.0; ROW_PLACES]; 3];
    let mut steps = [0; ROW_PLACES];
    let mut substituted = [0; ROW_PLACES];
    let answer = spheroidal::row_into(
        library::kind_of(sheet),
        library::mode_of(sheet, c),
        sheet.allowance,
        &mut values[..count],
        &mut steps[..count],
        &mut lowers[..count],
        &mut uppers[..count],
        &mut substituted[..count],
    );
    answer.unwrap_or_else(|refusal| panic!("{refusal}: {sheet}"));
    values[count - 1]
}

fn angular(sheet: &Sheet, c: f64, cv: f64, x: f64) -> [f64; 2] {
    let mode = library::mode_of(sheet, c);
    let answer = spheroidal::angular(library::kind_of(sheet), mode, cv, x);
    let Pair { value, derivative } = answer.unwrap_or_else(|refusal| panic!("{refusal}: {sheet}"));
    [value, derivative]
}

/// Panics where a place of the sheet's block is another by these single calls.
fn check(sheet: &Sheet, single_calls: Way) {
    let [ours, single] = [by_sheet, single_calls].map(|way| {
        let mut block = vec![0.0; sheet.places()];
        way(sheet, &mut block);
        block
    });
    let other = (0..ours.len()).find(|&at| !same(ours[at], single[at]));
    assert!(other.is_none(), "place {other:?}: {sheet}");
}

/// Runs so many sheets one way and answers the time of one, with lists and a block of its own.
fn side(way: Way, sheets: &[Sheet], calls: usize) -> impl FnMut() -> f64 + use<> {
    let sheets = sheets.to_vec();
    let mut block = vec![0.0; sheets[0].places()];
    move || {
        let all = seconds(|| {
            for call in 0..calls {
                let at = call % sheets.len();
                way(black_box(&sheets[at]), black_box(&mut block));
            }
        });
        all / calls as f64
    }
}

/// Times a way beside another, in turn.
fn measure(sheets: &[Sheet], ours: Way, other: Way) -> Measured {
    let once = side(other, sheets, 2)();
    let calls = (ROUND / once).ceil();
    let rounds = (ALL_ROUNDS / (calls * once)) as usize;
    Measured::rounds(
        rounds.clamp(FEWEST_ROUNDS, ROUNDS),
        side(ours, sheets, calls as usize),
        side(other, sheets, calls as usize),
    )
}

struct Targets {
    met: usize,
    missed: usize,
}

impl Targets {
    /// One line of the table.
    fn line(&mut self, mode: &Mode, parameters: usize, arguments: usize) {
        let sheets = mode.sheets(parameters, arguments);
        for sheet in &sheets {
            check(sheet, with_rows_kept);
        }
        // One of these, since it takes as long as all the others.
        check(&sheets[0], pair_by_pair);
        let full = (parameters, arguments) == LENGTHS[0];
        let target = (full && matches!(mode.size, "small" | "middle")).then_some(TARGET);
        let beside_pairs = measure(&sheets, by_sheet, pair_by_pair);
        let beside_rows = measure(&sheets, by_sheet, with_rows_kept);
        let rows = measure(&sheets, rows_alone, by_sheet);
        println!(
            "| {parameters} × {arguments} | {} | {} | {} | {} | {} | {} | {} | {} |",
            mode.size,
            mode.name(),
            time(beside_rows.ours),
            time(beside_pairs.rust),
            self.factors(&beside_pairs, target),
            time(beside_rows.rust),
            self.factors(&beside_rows, target),
            time(rows.ours),
        );
    }

    /// How many times as fast, and what is said of the target.
    fn factors(&mut self, measured: &Measured, target: Option<f64>) -> String {
        let verdict = verdict(measured.factor(), target);
        self.met += usize::from(verdict == "PASS");
        self.missed += usize::from(verdict == "MISSED");
        let factors = format!("{} {verdict}", measured.factors());
        factors.trim_end().to_string()
    }
}

fn main() {
    println!(
        "Sheets beside single calls of the same library, in turn, {FEWEST_ROUNDS} to {ROUNDS} rounds. Time of a"
    );
    println!(
        "sheet in the best round; times as fast as single calls, median of the rounds (quarters): pair"
    );
    println!(
        "by pair, a row and an angular call for each; with rows kept, one row for each c. Last, the"
    );
    println!(
        "time of these rows alone. A target of {TARGET} is met where the best times and the median reach it."
    );
    println!(
        "\n| c × x | size | mode | sheet | pair by pair | times as fast | rows kept | times as fast | rows alone |"
    );
    println!("|---|---|---|---|---|---|---|---|---|");
    let mut targets = Targets { met: 0, missed: 0 };
    for (parameters, arguments) in LENGTHS {
        for mode in &MODES {
            targets.line(mode, parameters, arguments);
        }
    }
    println!("\n{} targets met, {} missed", targets.met, targets.missed);
}
