//! What `stream.rs` asks: records by their number in a stream.

use oracle::answer::segv;
use oracle::record::{Kind, Record};

const NOTHING: Record = Record {
    operation: 3,
    m: 0,
    n: 0,
    allowance: 65_535,
    c: 1.0,
    cv: 0.0,
    x: 0.0,
};

pub fn refused(number: usize) -> Record {
    Record {
        m: 200,
        n: 200 + (number % 100) as u16,
        ..NOTHING
    }
}

/// Refusals 3 to 8 in turn.
pub fn refused_in_turn(number: usize) -> Record {
    match number % 6 {
        0 => Record {
            operation: 9,
            ..NOTHING
        },
        1 => refused(number),
        2 => Record { c: -1.0, ..NOTHING },
        3 => Record {
            c: 175.0,
            ..NOTHING
        },
        4 => Record {
            cv: f64::NAN,
            ..NOTHING
        },
        _ => Record { x: 1.5, ..NOTHING },
    }
}

/// Small modes, no two alike.
fn mode(number: usize) -> Record {
    let m = (number % 4) as u16;
    Record {
        m,
        n: m + (number / 4 % 8) as u16,
        c: 5.0 * (1.0 + number as f64 * 1e-6),
        ..NOTHING
    }
}

pub fn row(number: usize) -> Record {
    let operation = 1 + (number % 2) as u8;
    Record {
        operation,
        ..mode(number)
    }
}

fn with_value(record: Record, kind: Kind) -> Record {
    let row = segv(kind, record.m, record.n, record.c);
    Record {
        cv: row[row.len() - 1],
        ..record
    }
}

pub fn angular(number: usize) -> Record {
    let (operation, kind) = [(3, Kind::Prolate), (4, Kind::Oblate)][number % 2];
    let x = (number % 1000) as f64 / 1000.0;
    Record {
        operation,
        x,
        ..with_value(mode(number), kind)
    }
}

pub fn radial(number: usize) -> Record {
    Record {
        operation: 5,
        ..with_value(mode(number), Kind::Oblate)
    }
}

pub fn both_kinds(number: usize) -> Record {
    Record {
        operation: 5,
        ..first_kind(number)
    }
}

pub fn first_kind(number: usize) -> Record {
    Record {
        operation: 8,
        x: (number % 1000) as f64 / 100.0,
        ..with_value(mode(number), Kind::Oblate)
    }
}
