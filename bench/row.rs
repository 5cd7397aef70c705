//! What `rows.rs` hands out and `before.rs` compares: answers of one build of the library.

pub const PLACES: usize = 200;

/// Doubles by their bits; past n − m every place is zero, and in DLMF's form all but the values are.
#[repr(C)]
#[derive(PartialEq)]
pub struct Row {
    pub values: [u64; PLACES],
    pub lowers: [u64; PLACES],
    pub uppers: [u64; PLACES],
    pub steps: [u32; PLACES],
    pub substituted: [u8; PLACES],
}

impl Row {
    pub fn new() -> Row {
        Row {
            values: [0; PLACES],
            lowers: [0; PLACES],
            uppers: [0; PLACES],
            steps: [0; PLACES],
            substituted: [0; PLACES],
        }
    }
}

/// The oblate row, or the prolate one, in one form, with the largest allowance of 16 bits; whether it
/// was accepted.
pub type RowFunction = extern "C" fn(oblate: bool, m: u16, n: u16, c: f64, row: &mut Row) -> bool;

/// What is asked of a radial function.
#[repr(C)]
pub struct Radial {
    pub m: u16,
    pub n: u16,
    pub c: f64,
    pub cv: f64,
    pub x: f64,
}

/// Radial functions of a mode at x, by their bits, both kinds or the first and zeros; whether they were
/// accepted.
pub type RadialFunction = extern "C" fn(asked: &Radial, places: &mut [u64; 4]) -> bool;
