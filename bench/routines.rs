//! Times the ported routines beside the Rust's, one by one, both sides in turn in one process.

#[allow(dead_code)]
#[path = "../tests/routines/library.rs"]
mod library;
#[allow(dead_code)]
mod measure;

use std::hint::black_box;

use library::{
    routines_aswfa, routines_cbk, routines_kmn, routines_msta1, routines_msta2, routines_qstar,
    routines_sckb, routines_sdmn, routines_sphj, routines_sphy,
};
use measure::{Measured, seconds, short, time};
use oracle::answer::{self, Build};
use oracle::reading::{half_offset_plus_c, highest_order};
use oracle::record::{Kind, Record};

const ROUNDS: usize = 15;

fn compare(name: &str, times: usize, mut ours: impl FnMut(), mut theirs: impl FnMut()) {
    let measured = Measured::rounds(
        ROUNDS,
        || seconds(|| (0..times).for_each(|_| ours())),
        || seconds(|| (0..times).for_each(|_| theirs())),
    );
    println!(
        "| | {name:<12} | {:>8} | {:>8} | {:>5} | {:<24} |",
        time(measured.ours / times as f64),
        time(measured.rust / times as f64),
        short(measured.ratio()),
        measured.factors(),
    );
}

/// A record with the characteristic value of its own mode.
fn record_of(kind: Kind, m: u16, n: u16, c: f64) -> Record {
    let cv = *answer::segv(kind, m, n, c)
        .last()
        .expect("a row has a value");
    Record {
        operation: 3,
        m,
        n,
        allowance: 0,
        c,
        cv,
        x: 0.0,
    }
}

fn report(kind: Kind, m: u16, n: u16, c: f64, times: usize) {
    let record = record_of(kind, m, n, c);
    let cv = record.cv;
    let nm = 25 + half_offset_plus_c(m, n, c) as u32;
    let kd = f64::from(kind.sign());
    let (m, n) = (u32::from(m), u32::from(n));
    let (mut df, mut ck) = ([0.0; 200], [0.0; 200]);
    println!("| {kind:?} m {m} n {n} c {c}, N {nm} | | | | | |");
    compare(
        "sdmn",
        times,
        || routines_sdmn(m, n, black_box(c), black_box(cv), kd, black_box(&mut df)),
        || {
            black_box(answer::sdmn(kind, black_box(&record)));
        },
    );
    let df = answer::sdmn(kind, &record);
    compare(
        "sckb",
        times,
        || routines_sckb(black_box(&df), m, n, black_box(c), black_box(&mut ck)),
        || {
            black_box(answer::sckb(black_box(&record), black_box(&df)));
        },
    );
    // The unaltered Rust, whose powers are the library's `powf`.
    let (x, mut value, mut derivative) = (0.3, 0.0, 0.0);
    compare(
        "aswfa at 0.3",
        times,
        || {
            let (value, derivative) = (black_box(&mut value), black_box(&mut derivative));
            routines_aswfa(
                m,
                n,
                black_box(c),
                black_box(cv),
                kd,
                black_box(x),
                value,
                derivative,
            )
        },
        || {
            black_box(answer::aswfa(
                Build::Unaltered,
                kind,
                black_box(&record),
                black_box(x),
            ));
        },
    );
}

/// The routines of the disc. The Rust's `kmn` computes more than the disc needs.
fn report_disc(m: u16, n: u16, c: f64, times: usize) {
    let record = record_of(Kind::Oblate, m, n, c);
    let nm = 25 + half_offset_plus_c(m, n, c) as u32;
    let df = answer::sdmn(Kind::Oblate, &record);
    let ck = answer::sckb(&record, &df);
    let ck1 = answer::kmn(&record, &df);
    let [mut qs, mut qt] = answer::qstar(&record, ck1, &ck);
    let mut bk = [0.0; 200];
    let (m, n) = (u32::from(m), u32::from(n));
    println!("| Oblate m {m} n {n} c {c}, N {nm} | | | | | |");
    compare(
        "kmn",
        times,
        || {
            black_box(routines_kmn(black_box(&df), m, n, black_box(c)));
        },
        || {
            black_box(answer::kmn(black_box(&record), black_box(&df)));
        },
    );
    compare(
        "qstar",
        times,
        || {
            let (qs, qt) = (black_box(&mut qs), black_box(&mut qt));
            routines_qstar(black_box(&ck), m, n, black_box(c), ck1, qs, qt)
        },
        || {
            black_box(answer::qstar(black_box(&record), ck1, black_box(&ck)));
        },
    );
    compare(
        "cbk",
        times,
        || {
            let bk = black_box(&mut bk);
            routines_cbk(black_box(&ck), m, n, black_box(c), record.cv, qt, bk)
        },
        || {
            black_box(answer::cbk(black_box(&record), qt, black_box(&ck)));
        },
    );
}

/// The spherical Bessel functions off the disc, and the two searches for an order that those of the
/// first kind begin with. The unaltered Rust, with its own sine, cosine and logarithm.
fn report_bessel(m: u16, n: u16, c: f64, x: f64, times: usize) {
    let (z, highest) = (c * x, highest_order(m, n, c));
    let order = highest as u32;
    let (mut sj, mut dj) = ([0.0; 252], [0.0; 252]);
    println!("| Oblate m {m} n {n} c {c} x {x}, order {order} | | | | | |");
    compare(
        "msta1",
        times,
        || {
            black_box(routines_msta1(black_box(z), 200));
        },
        || {
            black_box(answer::msta1(Build::Unaltered, black_box(z), 200));
        },
    );
    compare(
        "msta2",
        times,
        || {
            black_box(routines_msta2(black_box(z), order, 15));
        },
        || {
            black_box(answer::msta2(Build::Unaltered, black_box(z), highest, 15));
        },
    );
    compare(
        "sphj",
        times,
        || {
            let (sj, dj) = (black_box(&mut sj), black_box(&mut dj));
            black_box(routines_sphj(black_box(z), order, sj, dj));
        },
        || {
            black_box(answer::sphj(Build::Unaltered, black_box(z), highest));
        },
    );
    compare(
        "sphy",
        times,
        || {
            let (sy, dy) = (black_box(&mut sj), black_box(&mut dj));
            black_box(routines_sphy(black_box(z), order, sy, dy));
        },
        || {
            black_box(answer::sphy(Build::Unaltered, black_box(z), highest));
        },
    );
}

fn main() {
    println!("The ported routines, {ROUNDS} rounds in turn.\n");
    println!("| mode | routine | ours | Rust | ratio | times as fast |");
    println!("|---|---|---|---|---|---|");
    report(Kind::Prolate, 0, 0, 1.0, 20_000);
    report(Kind::Oblate, 2, 9, 5.0, 20_000);
    report(Kind::Oblate, 40, 80, 50.0, 1_000);
    report(Kind::Oblate, 100, 150, 50.0, 500);
    report(Kind::Prolate, 0, 199, 75.0, 1_000);
    report(Kind::Oblate, 150, 349, 75.0, 500);
    report_disc(0, 0, 1.0, 20_000);
    report_disc(2, 9, 5.0, 5_000);
    report_disc(30, 60, 40.0, 200);
    report_disc(100, 150, 50.0, 50);
    report_disc(0, 199, 75.0, 20);
    report_bessel(0, 0, 1.0, 0.1, 10_000);
    report_bessel(0, 0, 1.0, 10.0, 10_000);
    report_bessel(10, 40, 15.0, 1.0, 5_000);
    report_bessel(0, 170, 15.0, 1.0, 5_000);
    report_bessel(0, 170, 15.0, 10.0, 5_000);
}
