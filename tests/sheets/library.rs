//! Sheets as the library exports them, and the same by its single calls.

#[path = "../../rust/spheroidal.rs"]
pub mod spheroidal;

use std::iter::once;

use oracle::record::Kind;
use oracle::sheet::Sheet;
use spheroidal::{Mode, Pair, Refusal, angular, row, sheet_into};

const MOST_PARAMETERS: usize = 32;
const MOST_ARGUMENTS: usize = 64;

/// The call's number, 0 or a refusal.
pub fn sheet(sheet: &Sheet, block: &mut [f64]) -> u8 {
    let Sheet {
        m,
        n,
        allowance,
        cs,
        xs,
        ..
    } = sheet;
    let answer = sheet_into(kind_of(sheet), *m, *n, *allowance, cs, xs, block);
    answer.map_or_else(Refusal::number, |()| 0)
}

/// The pairs by a row for each c and an angular call for each pair, or the first refusal. What an
/// angular call refuses for c or x alone is asked beside zeros, which no call refuses.
pub fn by_single_calls(sheet: &Sheet, block_length: usize) -> Result<Vec<f64>, u8> {
    let Sheet { cs, xs, .. } = sheet;
    let kind = kind_of(sheet);
    let of_cs = cs.iter().map(|&c| (c, 0.0));
    let of_xs = xs.iter().map(|&x| (0.0, x));
    for (c, x) in once((0.0, 0.0)).chain(of_cs).chain(of_xs) {
        angular(kind, mode_of(sheet, c), 0.0, x).map_err(Refusal::number)?;
    }
    let pairs = cs.len() * xs.len();
    if cs.len() > MOST_PARAMETERS || xs.len() > MOST_ARGUMENTS || block_length < 2 * pairs {
        return Err(13);
    }
    if pairs == 0 {
        return Ok(Vec::new());
    }
    let values = cs.iter().map(|&c| value_at_n(sheet, c));
    let values = values.collect::<Result<Vec<f64>, u8>>()?;
    let mut block = Vec::with_capacity(2 * pairs);
    for (&c, cv) in cs.iter().zip(values) {
        for &x in xs {
            let Pair { value, derivative } =
                angular(kind, mode_of(sheet, c), cv, x).map_err(Refusal::number)?;
            block.extend([value, derivative]);
        }
    }
    Ok(block)
}

/// The last value of the row of this c.
pub fn value_at_n(sheet: &Sheet, c: f64) -> Result<f64, u8> {
    let values = row(kind_of(sheet), mode_of(sheet, c), sheet.allowance);
    let values = values.map_err(Refusal::number)?;
    Ok(values[values.len() - 1].value)
}

pub fn kind_of(sheet: &Sheet) -> spheroidal::Kind {
    match sheet.kind {
        Kind::Prolate => spheroidal::Kind::Prolate,
        Kind::Oblate => spheroidal::Kind::Oblate,
    }
}

pub fn mode_of(sheet: &Sheet, c: f64) -> Mode {
    let Sheet { m, n, .. } = *sheet;
    Mode { m, n, c }
}
