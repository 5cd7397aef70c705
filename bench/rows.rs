//! Rows and radial functions of one checkout, by its own wrapper, behind functions that are the same for
//! all: so two builds can be loaded into one process, also where their interfaces differ.

mod row;

use row::{PLACES, Radial, RadialFunction, Row, RowFunction};
use spheroidal::{Kind, Mode};

/// Holds the functions to the type that `before.rs` calls them by.
const _: [RowFunction; 2] = [bench_row, bench_dlmf_row];
const _: [RadialFunction; 2] = [bench_radial, bench_first_kind];

fn kind(oblate: bool) -> Kind {
    if oblate { Kind::Oblate } else { Kind::Prolate }
}

#[unsafe(no_mangle)]
pub extern "C" fn bench_row(oblate: bool, m: u16, n: u16, c: f64, row: &mut Row) -> bool {
    let [mut values, mut lowers, mut uppers] = [[0.0; PLACES]; 3];
    let mut steps = [0; PLACES];
    let mut substituted = [0; PLACES];
    let answer = spheroidal::row_into(
        kind(oblate),
        Mode { m, n, c },
        u16::MAX.into(),
        &mut values,
        &mut steps,
        &mut lowers,
        &mut uppers,
        &mut substituted,
    );
    *row = Row {
        values: values.map(f64::to_bits),
        lowers: lowers.map(f64::to_bits),
        uppers: uppers.map(f64::to_bits),
        steps: steps.map(u32::from),
        substituted,
    };
    answer.is_ok()
}

#[unsafe(no_mangle)]
pub extern "C" fn bench_dlmf_row(oblate: bool, m: u16, n: u16, c: f64, row: &mut Row) -> bool {
    let mut values = [0.0; PLACES];
    let mode = Mode { m, n, c };
    let answer = spheroidal::dlmf_row_into(kind(oblate), mode, u16::MAX.into(), &mut values);
    row.values = values.map(f64::to_bits);
    answer.is_ok()
}

#[unsafe(no_mangle)]
pub extern "C" fn bench_radial(asked: &Radial, places: &mut [u64; 4]) -> bool {
    let &Radial { m, n, c, cv, x } = asked;
    let answer = spheroidal::radial(Mode { m, n, c }, cv, x);
    if let Ok(spheroidal::Radial { first, second }) = answer {
        let numbers = [
            first.value,
            first.derivative,
            second.value,
            second.derivative,
        ];
        *places = numbers.map(f64::to_bits);
    }
    answer.is_ok()
}

#[unsafe(no_mangle)]
pub extern "C" fn bench_first_kind(asked: &Radial, places: &mut [u64; 4]) -> bool {
    let &Radial { m, n, c, cv, x } = asked;
    let answer = spheroidal::first_kind(Mode { m, n, c }, cv, x);
    if let Ok(pair) = answer {
        *places = [pair.value, pair.derivative, 0.0, 0.0].map(f64::to_bits);
    }
    answer.is_ok()
}
