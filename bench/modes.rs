//! Times the library beside the unaltered Rust on modes of all sizes, after a check that every
//! answer is equal bit for bit, and says which targets are met.

mod library;
#[allow(dead_code)]
mod measure;

use std::hint::black_box;

use measure::{Measured, ROUNDS, seconds, short, time, verdict};
use oracle::answer::{self, Build};
use oracle::record::{Kind, Record, same};

/// How long the Rust's side of a round takes, about, where one call does not take longer.
const ROUND: f64 = 0.005;

const ANGULAR_AT: [f64; 3] = [0.3, 0.9, 1.0];
const FIRST_KIND_AT: [f64; 3] = [0.1, 1.0, 10.0];
/// By `rmn2so` at the first, by either at the second, by `rmn2l` at the last, if not for the largest.
const RADIAL_AT: [f64; 3] = [0.01, 1.0, 10.0];

#[derive(Clone, Copy, Debug)]
enum Size {
    Smallest,
    Small,
    Middle,
    Largest,
}
use Size::{Largest, Middle, Small, Smallest};

struct Mode {
    size: Size,
    kind: Kind,
    m: u16,
    n: u16,
    c: f64,
}

const fn mode(size: Size, kind: Kind, m: u16, n: u16, c: f64) -> Mode {
    Mode {
        size,
        kind,
        m,
        n,
        c,
    }
}

const ROWS: [Mode; 6] = [
    mode(Smallest, Kind::Prolate, 0, 0, 1.0),
    mode(Small, Kind::Prolate, 0, 5, 5.0),
    mode(Middle, Kind::Oblate, 0, 40, 20.0),
    mode(Middle, Kind::Oblate, 40, 80, 50.0),
    mode(Largest, Kind::Prolate, 0, 199, 190.0),
    mode(Largest, Kind::Oblate, 199, 398, 90.0),
];

/// Of coefficients and angular pairs.
const MODES: [Mode; 6] = [
    mode(Smallest, Kind::Prolate, 0, 0, 1.0),
    mode(Small, Kind::Oblate, 0, 5, 5.0),
    mode(Middle, Kind::Prolate, 0, 40, 20.0),
    mode(Middle, Kind::Oblate, 20, 60, 30.0),
    mode(Largest, Kind::Prolate, 0, 199, 75.0),
    mode(Largest, Kind::Oblate, 199, 398, 70.0),
];

/// Of the disc. Which modes are largest is up to N + m, at most 200; how much of the Rust's time
/// can be saved depends on how it is shared out.
const DISC: [Mode; 7] = [
    mode(Smallest, Kind::Oblate, 0, 0, 1.0),
    mode(Small, Kind::Oblate, 0, 5, 5.0),
    mode(Middle, Kind::Oblate, 10, 40, 20.0),
    mode(Middle, Kind::Oblate, 40, 80, 40.0),
    mode(Largest, Kind::Oblate, 0, 199, 75.0),
    mode(Largest, Kind::Oblate, 100, 150, 50.0),
    mode(Largest, Kind::Oblate, 170, 175, 1.0),
];

/// Of radial functions off the disc, where 2N + m is at most 251 and c x at most 200.
const OFF_DISC: [Mode; 5] = [
    mode(Smallest, Kind::Oblate, 0, 0, 1.0),
    mode(Small, Kind::Oblate, 0, 5, 5.0),
    mode(Middle, Kind::Oblate, 10, 40, 15.0),
    mode(Largest, Kind::Oblate, 0, 170, 15.0),
    mode(Largest, Kind::Oblate, 60, 150, 15.0),
];

impl Mode {
    fn name(&self) -> String {
        let kind = format!("{:?}", self.kind).to_lowercase();
        format!("{kind} m {} n {} c {}", self.m, self.n, self.c)
    }

    /// The arguments of a round's calls, with the characteristic value of their own mode. They
    /// differ in c's sixth digit: with one c for all, the processor's branch prediction would learn
    /// a small mode by heart, which no caller's modes would let it.
    fn records(&self) -> Vec<Record> {
        let count = match self.size {
            Smallest => 2000,
            Small => 1000,
            Middle => 200,
            Largest => 64,
        };
        let record = |call: usize| {
            let c = self.c * (1.0 + call as f64 * 1e-6);
            let row = answer::segv(self.kind, self.m, self.n, c);
            Record {
                operation: 0,
                m: self.m,
                n: self.n,
                allowance: u32::MAX,
                c,
                cv: row[row.len() - 1],
                x: 0.0,
            }
        };
        (0..count).map(record).collect()
    }
}

struct Table {
    met: usize,
    missed: usize,
}

impl Table {
    /// One line. The answers are held against `check`, which is the Rust too.
    fn line<A: AsRef<[f64]>>(
        &mut self,
        call: &str,
        mode: &Mode,
        target: Option<f64>,
        records: &[Record],
        ours: impl Fn(&Record) -> A,
        rust: impl Fn(&Record) -> A,
        check: impl Fn(&Record) -> A,
    ) {
        let once = seconds(|| records.iter().take(8).for_each(|record| drop(rust(record)))) / 8.0;
        let calls = (ROUND / once).ceil() as usize;
        for record in records.iter().take(calls) {
            let (left, right) = (ours(record), check(record));
            let (left, right) = (left.as_ref(), right.as_ref());
            let equal = left
                .iter()
                .zip(right)
                .all(|(&left, &right)| same(left, right));
            assert!(equal && left.len() == right.len(), "{call}: {record}");
        }
        let arguments = || records.iter().cycle().take(calls);
        let measured = Measured::rounds(
            ROUNDS,
            || seconds(|| arguments().for_each(|record| drop(black_box(ours(black_box(record)))))),
            || seconds(|| arguments().for_each(|record| drop(black_box(rust(black_box(record)))))),
        );
        let verdict = verdict(measured.factor(), target);
        self.met += usize::from(verdict == "PASS");
        self.missed += usize::from(verdict == "MISSED");
        let each = calls as f64;
        println!(
            "| {:<17} | {:<8} | {:<25} | {:>8} | {:>8} | {:>5} | {:<24} | {:>6} | {:<6} |",
            call,
            format!("{:?}", mode.size).to_lowercase(),
            mode.name(),
            time(measured.ours / each),
            time(measured.rust / each),
            short(measured.ratio()),
            measured.factors(),
            target.map_or("none".to_string(), |target| format!("{target:.0}")),
            verdict,
        );
    }

    /// The lines of a call off the disc, at each of some x. The unaltered text has its own powers and
    /// elementary functions, whose last bits may be others than ours: it is timed, and the build that
    /// calls ours is compared.
    fn off_disc<A: AsRef<[f64]>>(
        &mut self,
        call: &str,
        at: [f64; 3],
        ours: fn(&Record) -> A,
        rust: fn(Build, &Record) -> A,
    ) {
        for mode in &OFF_DISC {
            let records = mode.records();
            for x in at {
                let records: Vec<Record> = records
                    .iter()
                    .map(|record| Record { x, ..*record })
                    .collect();
                self.line(
                    &format!("{call} at {x}"),
                    mode,
                    None,
                    &records,
                    ours,
                    |record: &Record| rust(Build::Unaltered, record),
                    |record: &Record| rust(Build::PowerRule, record),
                );
            }
        }
    }
}

fn main() {
    println!(
        "The library beside the unaltered Rust built for release, in turn, {ROUNDS} rounds. Time of a call"
    );
    println!(
        "in the best round; ratio of these times, ours to the Rust's; times as fast, median of the"
    );
    println!("rounds (quarters). A target is met where the best times and the median reach it.\n");
    println!("| call | size | mode | library | Rust | ratio | times as fast | target | |");
    println!("|---|---|---|---|---|---|---|---|---|");
    let mut table = Table { met: 0, missed: 0 };
    for mode in &ROWS {
        let kind = mode.kind;
        let rust = |record: &Record| answer::segv(kind, record.m, record.n, record.c);
        let ours = |record: &Record| library::row(kind, record);
        table.line("row", mode, Some(1.0), &mode.records(), ours, rust, rust);
    }
    let of_modes: Vec<Vec<Record>> = MODES.iter().map(Mode::records).collect();
    for (mode, records) in MODES.iter().zip(&of_modes) {
        let kind = mode.kind;
        let rust = |record: &Record| answer::sdmn(kind, record);
        let ours = |record: &Record| library::coefficients(kind, record);
        table.line("coefficients", mode, None, records, ours, rust, rust);
    }
    for (mode, records) in MODES.iter().zip(&of_modes) {
        for x in ANGULAR_AT {
            let records: Vec<Record> = records
                .iter()
                .map(|record| Record { x, ..*record })
                .collect();
            let kind = mode.kind;
            // The unaltered powers are the library's `powf`, whose last bits may be others than the
            // power rule's: they are timed, and the power rule's are compared.
            let rust = |record: &Record| answer::aswfa(Build::Unaltered, kind, record, record.x);
            let ruled = |record: &Record| answer::aswfa(Build::PowerRule, kind, record, record.x);
            let ours = |record: &Record| library::angular(kind, record);
            table.line(
                &format!("angular at {x}"),
                mode,
                Some(2.0),
                &records,
                ours,
                rust,
                ruled,
            );
        }
    }
    for mode in &DISC {
        let target = match mode.size {
            Smallest | Small => None,
            Middle => Some(5.0),
            Largest => Some(20.0),
        };
        // At x = 0 the text has no power or elementary function whose last bits could be others.
        let rust = |record: &Record| answer::both_kinds(Build::Unaltered, record);
        table.line(
            "radial",
            mode,
            target,
            &mode.records(),
            library::radial,
            rust,
            rust,
        );
    }
    table.off_disc(
        "first kind",
        FIRST_KIND_AT,
        library::first_kind,
        answer::first_kind,
    );
    table.off_disc("radial", RADIAL_AT, library::radial, answer::both_kinds);
    println!("\n{} targets met, {} missed", table.met, table.missed);
}
