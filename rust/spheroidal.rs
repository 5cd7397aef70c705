//! Spheroidal modes of a flat disc, proved: safe Rust functions over the static library.
//!
//! One file without dependencies, for Rust 1.82 or later. Copy it, or name it from where it stands:
//!
//! ```text
//! #[path = "rust/spheroidal.rs"]
//! mod spheroidal;
//! ```
//!
//! `./build` makes the library; `rustc -L native=target/spheroidal/lib ..` finds it, and from a Cargo
//! build script `println!("cargo:rustc-link-search=native=..")` does. Its name stands below.
//!
//! Each function answers, or refuses with document 01's number and leaves every lent place as it was.
//! No argument is forbidden and none makes these functions panic. They keep no state and may run in
//! any number of threads.
//!
//! `include/spheroidal.h` says what the functions are. An answer is what the ported formulas give: with
//! large n − m, m or c and with c just above zero they lose digits, down to none, and NaN and infinity
//! can be answers (docs/ACCURACY.md).

// a program that takes this file in need not use all of it
#![allow(dead_code)]

use std::error::Error;
use std::fmt;

/// The version, that of the header; which of its numbers moves when is said there.
pub const VERSION: &str = "7.0.0";

/// The largest m.
pub const LARGEST_ORDER: u16 = 199;
/// The largest n − m.
pub const LARGEST_OFFSET: u16 = 199;
/// What (n − m)/2 + c stays below in rows.
pub const ROW_LIMIT: f64 = 291.0;
/// What (n − m)/2 + c stays below in all else.
pub const LIMIT: f64 = 175.0;
/// What N + m is at most in radial functions; N is 25 plus (n − m)/2 + c cut to a whole number.
pub const RADIAL_PLACES: usize = 200;
/// What 2N + m is at most off the disc.
pub const BESSEL_ORDER: usize = 251;
/// What c · x, in doubles, is at most off the disc.
pub const BESSEL_ARGUMENT: f64 = 200.0;
/// The most places that a row needs.
pub const ROW_PLACES: usize = 200;
/// How many expansion coefficients there are.
pub const COEFFICIENTS: usize = 200;
/// The most c of a sheet.
pub const SHEET_PARAMETERS: usize = 32;
/// The most x of a sheet.
pub const SHEET_ARGUMENTS: usize = 64;
/// The most places that a sheet needs.
pub const SHEET_PLACES: usize = 4096;

#[derive(Clone, Copy, Debug, PartialEq, Eq)]
pub enum Kind {
    Prolate,
    Oblate,
}

/// Order m, degree n and size parameter c.
#[derive(Clone, Copy, Debug, PartialEq)]
pub struct Mode {
    pub m: u16,
    pub n: u16,
    pub c: f64,
}

/// A characteristic value with its number of steps, the bracket at the last of them, and whether a
/// zero pivot was met on the way.
#[derive(Clone, Copy, Debug, PartialEq)]
pub struct ModeValue {
    pub value: f64,
    pub steps: u32,
    pub lower: f64,
    pub upper: f64,
    /// Whether, in some count of negative pivots made for this value, 1e-30 was divided by in place of
    /// a pivot that was exactly zero. To be logged; it is no error, and common at small c.
    pub substituted: bool,
}

/// A function's value and derivative.
#[derive(Clone, Copy, Debug, PartialEq)]
pub struct Pair {
    pub value: f64,
    pub derivative: f64,
}

/// The radial functions of both kinds.
#[derive(Clone, Copy, Debug, PartialEq)]
pub struct Radial {
    pub first: Pair,
    pub second: Pair,
}

/// Why a call was refused. The first that applies in this order is the answer, but in sheets `Allowance`
/// comes last. A `match` does well to have an arm for others: version 3.0 added two, 7.0 the last one.
#[derive(Clone, Copy, Debug, PartialEq, Eq, Hash)]
pub enum Refusal {
    /// m > 199, n < m or n − m > 199.
    ModeNumbers,
    /// c is NaN, infinite or below zero.
    SizeParameter,
    /// (n − m)/2 + c is too large, or N + m in radial functions.
    TooLarge,
    /// The characteristic value is NaN or infinite.
    CharacteristicValue,
    /// x is NaN or outside −1 to 1 in angular functions and sheets, and in `radial` and `first_kind` NaN,
    /// infinite or below zero.
    Argument,
    /// A lent slice is too short.
    Buffer,
    /// A value used up its allowance of steps.
    Allowance,
    /// In `radial` and `first_kind` with x above zero, 2N + m is above 251 or c · x above 200.
    OffTheDisc,
    /// In `radial` and `first_kind` with x above zero, a trial order of the Bessel functions is outside 1
    /// to 100,000. None is known.
    TrialOrder,
    /// A sheet has more than 32 c or 64 x, or its block is too short.
    Sheet,
}

impl Refusal {
    /// Document 01's number.
    pub fn number(self) -> u8 {
        match self {
            Refusal::ModeNumbers => 4,
            Refusal::SizeParameter => 5,
            Refusal::TooLarge => 6,
            Refusal::CharacteristicValue => 7,
            Refusal::Argument => 8,
            Refusal::Buffer => 9,
            Refusal::Allowance => 10,
            Refusal::OffTheDisc => 11,
            Refusal::TrialOrder => 12,
            Refusal::Sheet => 13,
        }
    }

    /// The refusal in words, those of the header's `spheroidal_refusal_sentence`.
    pub fn sentence(self) -> &'static str {
        match self {
            Refusal::ModeNumbers => "m is above 199, n is below m, or n - m is above 199",
            Refusal::SizeParameter => "c is not a finite number from zero on",
            Refusal::TooLarge => {
                "the mode is too large: (n - m)/2 + c, or in radial functions m beside it"
            }
            Refusal::CharacteristicValue => "the characteristic value is not finite",
            Refusal::Argument => {
                "x is out of range: -1 to 1 if angular, finite and not below zero if radial"
            }
            Refusal::Buffer => "a lent buffer is too short",
            Refusal::Allowance => "a value used up its allowance of steps",
            Refusal::OffTheDisc => {
                "off the disc, where x is above zero, the mode or c * x is too large"
            }
            Refusal::TrialOrder => "a trial order of the Bessel functions is outside 1 to 100000",
            Refusal::Sheet => "a sheet has more than 32 c or 64 x, or its block is too short",
        }
    }
}

impl fmt::Display for Refusal {
    fn fmt(&self, out: &mut fmt::Formatter<'_>) -> fmt::Result {
        write!(out, "refused {}: {}", self.number(), self.sentence())
    }
}

impl Error for Refusal {}

/// The characteristic values of the modes from m to n, with at most so many steps for each.
///
/// `u32::MAX` is the usual allowance, as more of it never changes an accepted row. Before 6.0 allowance and
/// steps were `u16`.
pub fn row(kind: Kind, mode: Mode, allowance: u32) -> Result<Vec<ModeValue>, Refusal> {
    let count = places(mode);
    let [mut values, mut lowers, mut uppers] = [[0.0; ROW_PLACES]; 3];
    let mut steps = [0; ROW_PLACES];
    let mut substituted = [0; ROW_PLACES];
    row_into(
        kind,
        mode,
        allowance,
        &mut values[..count],
        &mut steps[..count],
        &mut lowers[..count],
        &mut uppers[..count],
        &mut substituted[..count],
    )?;
    let place = |at: usize| ModeValue {
        value: values[at],
        steps: steps[at],
        lower: lowers[at],
        upper: uppers[at],
        substituted: substituted[at] != 0,
    };
    Ok((0..count).map(place).collect())
}

/// The row, written into the first n − m + 1 places of each slice; nothing is allocated. In
/// `substituted`, 1 is yes and 0 no.
pub fn row_into(
    kind: Kind,
    mode: Mode,
    allowance: u32,
    values: &mut [f64],
    steps: &mut [u32],
    lowers: &mut [f64],
    uppers: &mut [f64],
    substituted: &mut [u8],
) -> Result<(), Refusal> {
    let call = match kind {
        Kind::Prolate => library::spheroidal_prolate_row,
        Kind::Oblate => library::spheroidal_oblate_row,
    };
    // SAFETY: each pointer and length are those of one slice, and slices that are lent to be written
    // do not overlap.
    answer(unsafe {
        call(
            mode.m,
            mode.n,
            mode.c,
            allowance,
            values.as_mut_ptr(),
            values.len(),
            steps.as_mut_ptr(),
            steps.len(),
            lowers.as_mut_ptr(),
            lowers.len(),
            uppers.as_mut_ptr(),
            uppers.len(),
            substituted.as_mut_ptr(),
            substituted.len(),
        )
    })
}

/// The row's values in DLMF's form, its eigenvalues: the value less c · c for prolate modes, the value
/// plus c · c for oblate ones. Before 4.0 the oblate ones were each less c · c, which is not DLMF's.
pub fn dlmf_row(kind: Kind, mode: Mode, allowance: u32) -> Result<Vec<f64>, Refusal> {
    let mut values = vec![0.0; places(mode)];
    dlmf_row_into(kind, mode, allowance, &mut values)?;
    Ok(values)
}

/// The same, written into the first n − m + 1 places.
pub fn dlmf_row_into(
    kind: Kind,
    mode: Mode,
    allowance: u32,
    values: &mut [f64],
) -> Result<(), Refusal> {
    let call = match kind {
        Kind::Prolate => library::spheroidal_prolate_dlmf_row,
        Kind::Oblate => library::spheroidal_oblate_dlmf_row,
    };
    // SAFETY: the pointer and the length are those of one slice.
    answer(unsafe {
        call(
            mode.m,
            mode.n,
            mode.c,
            allowance,
            values.as_mut_ptr(),
            values.len(),
        )
    })
}

/// The expansion coefficients of mode n with the characteristic value cv: the last of the row from m
/// to n, not in DLMF's form. Those that the mode does not use are zero.
pub fn coefficients(kind: Kind, mode: Mode, cv: f64) -> Result<[f64; COEFFICIENTS], Refusal> {
    let mut values = [0.0; COEFFICIENTS];
    coefficients_into(kind, mode, cv, &mut values)?;
    Ok(values)
}

/// The same, written into the first 200 places.
pub fn coefficients_into(
    kind: Kind,
    mode: Mode,
    cv: f64,
    values: &mut [f64],
) -> Result<(), Refusal> {
    let call = match kind {
        Kind::Prolate => library::spheroidal_prolate_coefficients,
        Kind::Oblate => library::spheroidal_oblate_coefficients,
    };
    // SAFETY: the pointer and the length are those of one slice.
    answer(unsafe {
        call(
            mode.m,
            mode.n,
            mode.c,
            cv,
            values.as_mut_ptr(),
            values.len(),
        )
    })
}

/// The angular function of mode n with the characteristic value cv, at x from −1 to 1.
pub fn angular(kind: Kind, mode: Mode, cv: f64, x: f64) -> Result<Pair, Refusal> {
    let call = match kind {
        Kind::Prolate => library::spheroidal_prolate_angular,
        Kind::Oblate => library::spheroidal_oblate_angular,
    };
    let [mut value, mut derivative] = [0.0; 2];
    // SAFETY: both places are this function's own.
    answer(unsafe { call(mode.m, mode.n, mode.c, cv, x, &mut value, &mut derivative) })?;
    Ok(Pair { value, derivative })
}

/// A sheet: the angular function of mode n for each c of `cs` at each x of `xs`, c by c: that of c number i
/// and x number j, counted from 0, is at i · `xs.len()` + j. Each c has the characteristic value of its own
/// row, and each row the whole allowance. Bit for bit it is what `row` and `angular` give.
///
/// At most 32 c and 64 x; where there are none of either, the sheet is empty.
pub fn sheet(
    kind: Kind,
    m: u16,
    n: u16,
    allowance: u32,
    cs: &[f64],
    xs: &[f64],
) -> Result<Vec<Pair>, Refusal> {
    // a list that is too long is refused, and gets places that are not used
    let pairs = cs.len().min(SHEET_PARAMETERS) * xs.len().min(SHEET_ARGUMENTS);
    let mut block = vec![0.0; 2 * pairs];
    sheet_into(kind, m, n, allowance, cs, xs, &mut block)?;
    let pair = |places: &[f64]| Pair {
        value: places[0],
        derivative: places[1],
    };
    Ok(block.chunks_exact(2).map(pair).collect())
}

/// The same, written into the first 2 · `cs.len()` · `xs.len()` places: value and derivative of each pair,
/// one after the other. Nothing is allocated.
pub fn sheet_into(
    kind: Kind,
    m: u16,
    n: u16,
    allowance: u32,
    cs: &[f64],
    xs: &[f64],
    block: &mut [f64],
) -> Result<(), Refusal> {
    let call = match kind {
        Kind::Prolate => library::spheroidal_prolate_sheet,
        Kind::Oblate => library::spheroidal_oblate_sheet,
    };
    // SAFETY: each pointer and length are those of one slice, and the one that is lent to be written
    // overlaps no other; the lists are only read.
    answer(unsafe {
        call(
            m,
            n,
            allowance,
            cs.as_ptr(),
            cs.len(),
            xs.as_ptr(),
            xs.len(),
            block.as_mut_ptr(),
            block.len(),
        )
    })
}

/// Both oblate radial functions of mode n with the characteristic value cv, at a finite x from zero on: on
/// the disc and off it. Before 5.0 an x above zero was refused. Off the disc digits of the second kind are
/// lost, most from x of 0.7 to 3; the header says where.
pub fn radial(mode: Mode, cv: f64, x: f64) -> Result<Radial, Refusal> {
    let zero = Pair {
        value: 0.0,
        derivative: 0.0,
    };
    let [mut first, mut second] = [zero; 2];
    // SAFETY: the four places are this function's own.
    answer(unsafe {
        library::spheroidal_oblate_radial(
            mode.m,
            mode.n,
            mode.c,
            cv,
            x,
            &mut first.value,
            &mut first.derivative,
            &mut second.value,
            &mut second.derivative,
        )
    })?;
    Ok(Radial { first, second })
}

/// The oblate radial function of the first kind of mode n with the characteristic value cv, at a finite
/// x from zero on: on the disc and off it. Near the disc, digits of the derivative are lost, and very near
/// it the value is 0 or NaN; the header says where.
pub fn first_kind(mode: Mode, cv: f64, x: f64) -> Result<Pair, Refusal> {
    let [mut value, mut derivative] = [0.0; 2];
    // SAFETY: both places are this function's own.
    answer(unsafe {
        library::spheroidal_oblate_first_kind(
            mode.m,
            mode.n,
            mode.c,
            cv,
            x,
            &mut value,
            &mut derivative,
        )
    })?;
    Ok(Pair { value, derivative })
}

/// How many places a row needs; a mode whose numbers the library refuses gets some that it does not
/// use.
fn places(mode: Mode) -> usize {
    usize::from(mode.n.saturating_sub(mode.m).min(LARGEST_OFFSET)) + 1
}

fn answer(number: u8) -> Result<(), Refusal> {
    match number {
        0 => Ok(()),
        4 => Err(Refusal::ModeNumbers),
        5 => Err(Refusal::SizeParameter),
        6 => Err(Refusal::TooLarge),
        7 => Err(Refusal::CharacteristicValue),
        8 => Err(Refusal::Argument),
        9 => Err(Refusal::Buffer),
        10 => Err(Refusal::Allowance),
        11 => Err(Refusal::OffTheDisc),
        12 => Err(Refusal::TrialOrder),
        13 => Err(Refusal::Sheet),
        _ => unreachable!("the library answers 0 or 4 to 13"),
    }
}

/// The functions of `include/spheroidal.h`, which says what each asks.
mod library {
    #[link(name = "spheroidal_c", kind = "static")]
    unsafe extern "C" {
        pub fn spheroidal_prolate_row(
            m: u16,
            n: u16,
            c: f64,
            allowance: u32,
            values: *mut f64,
            values_length: usize,
            steps: *mut u32,
            steps_length: usize,
            lowers: *mut f64,
            lowers_length: usize,
            uppers: *mut f64,
            uppers_length: usize,
            substituted: *mut u8,
            substituted_length: usize,
        ) -> u8;
        pub fn spheroidal_oblate_row(
            m: u16,
            n: u16,
            c: f64,
            allowance: u32,
            values: *mut f64,
            values_length: usize,
            steps: *mut u32,
            steps_length: usize,
            lowers: *mut f64,
            lowers_length: usize,
            uppers: *mut f64,
            uppers_length: usize,
            substituted: *mut u8,
            substituted_length: usize,
        ) -> u8;
        pub fn spheroidal_prolate_dlmf_row(
            m: u16,
            n: u16,
            c: f64,
            allowance: u32,
            values: *mut f64,
            length: usize,
        ) -> u8;
        pub fn spheroidal_oblate_dlmf_row(
            m: u16,
            n: u16,
            c: f64,
            allowance: u32,
            values: *mut f64,
            length: usize,
        ) -> u8;
        pub fn spheroidal_prolate_coefficients(
            m: u16,
            n: u16,
            c: f64,
            cv: f64,
            values: *mut f64,
            length: usize,
        ) -> u8;
        pub fn spheroidal_oblate_coefficients(
            m: u16,
            n: u16,
            c: f64,
            cv: f64,
            values: *mut f64,
            length: usize,
        ) -> u8;
        pub fn spheroidal_prolate_angular(
            m: u16,
            n: u16,
            c: f64,
            cv: f64,
            x: f64,
            value: *mut f64,
            derivative: *mut f64,
        ) -> u8;
        pub fn spheroidal_oblate_angular(
            m: u16,
            n: u16,
            c: f64,
            cv: f64,
            x: f64,
            value: *mut f64,
            derivative: *mut f64,
        ) -> u8;
        pub fn spheroidal_prolate_sheet(
            m: u16,
            n: u16,
            allowance: u32,
            cs: *const f64,
            cs_length: usize,
            xs: *const f64,
            xs_length: usize,
            block: *mut f64,
            block_length: usize,
        ) -> u8;
        pub fn spheroidal_oblate_sheet(
            m: u16,
            n: u16,
            allowance: u32,
            cs: *const f64,
            cs_length: usize,
            xs: *const f64,
            xs_length: usize,
            block: *mut f64,
            block_length: usize,
        ) -> u8;
        pub fn spheroidal_oblate_radial(
            m: u16,
            n: u16,
            c: f64,
            cv: f64,
            x: f64,
            value1: *mut f64,
            derivative1: *mut f64,
            value2: *mut f64,
            derivative2: *mut f64,
        ) -> u8;
        pub fn spheroidal_oblate_first_kind(
            m: u16,
            n: u16,
            c: f64,
            cv: f64,
            x: f64,
            value: *mut f64,
            derivative: *mut f64,
        ) -> u8;
    }
}
