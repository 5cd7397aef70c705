//! The library as buyers link it, by the Rust wrapper, called with the fields of a record. Each call
//! makes its places anew, as the Rust's wrappers do.

#[path = "../rust/spheroidal.rs"]
mod spheroidal;

use oracle::record::{Kind, Record};
use spheroidal::{COEFFICIENTS, Mode, ROW_PLACES, Refusal};

fn kind_of(kind: Kind) -> spheroidal::Kind {
    match kind {
        Kind::Prolate => spheroidal::Kind::Prolate,
        Kind::Oblate => spheroidal::Kind::Oblate,
    }
}

fn mode_of(record: &Record) -> Mode {
    let Record { m, n, c, .. } = *record;
    Mode { m, n, c }
}

fn accepted<A>(answer: Result<A, Refusal>, record: &Record) -> A {
    answer.unwrap_or_else(|refusal| panic!("{refusal}: {record}"))
}

pub fn row(kind: Kind, record: &Record) -> Vec<f64> {
    let mut values = vec![0.0; ROW_PLACES];
    let [mut lowers, mut uppers] = [[0.0; ROW_PLACES]; 2];
    let mut steps = [0; ROW_PLACES];
    let mut substituted = [0; ROW_PLACES];
    let answer = spheroidal::row_into(
        kind_of(kind),
        mode_of(record),
        record.allowance,
        &mut values,
        &mut steps,
        &mut lowers,
        &mut uppers,
        &mut substituted,
    );
    accepted(answer, record);
    values.truncate(usize::from(record.n - record.m) + 1);
    values
}

pub fn coefficients(kind: Kind, record: &Record) -> [f64; COEFFICIENTS] {
    let mut values = [0.0; COEFFICIENTS];
    let answer =
        spheroidal::coefficients_into(kind_of(kind), mode_of(record), record.cv, &mut values);
    accepted(answer, record);
    values
}

pub fn angular(kind: Kind, record: &Record) -> [f64; 2] {
    let answer = spheroidal::angular(kind_of(kind), mode_of(record), record.cv, record.x);
    let pair = accepted(answer, record);
    [pair.value, pair.derivative]
}

pub fn radial(record: &Record) -> [f64; 4] {
    let answer = spheroidal::radial(mode_of(record), record.cv, record.x);
    let spheroidal::Radial { first, second } = accepted(answer, record);
    [
        first.value,
        first.derivative,
        second.value,
        second.derivative,
    ]
}

pub fn first_kind(record: &Record) -> [f64; 2] {
    let answer = spheroidal::first_kind(mode_of(record), record.cv, record.x);
    let pair = accepted(answer, record);
    [pair.value, pair.derivative]
}
