//! An own reading of `msta1` and `msta2` of `bessel.rs`, which find the order from which `sphj` recurs
//! downwards: refusal 12 asks for each order that they try, and the Rust hands out the last alone.

use crate::elementary::log10;

const LEAST_ORDER: i32 = 1;
const GREATEST_ORDER: i32 = 100_000;

/// A trial order that refusal 12 turns back, as the Rust's `as` leaves it.
#[derive(Clone, Copy, Debug, PartialEq, Eq)]
pub struct OutOfRange(pub i32);

/// What `sphj` asks for, up to order `n` at x.
#[derive(Clone, Debug, PartialEq, Eq)]
pub struct Search {
    /// What `msta1` tried, in its order; the last is what it gives.
    pub first: Vec<i32>,
    /// Where that is not below n, what `msta2` tried; it gives 10 more than the last.
    pub second: Option<Vec<i32>>,
}

/// `sphj`'s search for orders from 2 on, at an x that is not too small for it.
pub fn search(x: f64, n: i32) -> Result<Search, OutOfRange> {
    let first = msta1(x, 200)?;
    let below = first.last().is_some_and(|&order| order < n);
    let second = if below { None } else { Some(msta2(x, n, 15)?) };
    Ok(Search { first, second })
}

/// The orders that `msta1` tries.
pub fn msta1(x: f64, mp: i32) -> Result<Vec<i32>, OutOfRange> {
    secant(x, beyond_argument(x), f64::from(mp))
}

/// The orders that `msta2` tries.
pub fn msta2(x: f64, n: i32, mp: i32) -> Result<Vec<i32>, OutOfRange> {
    let half = 0.5 * f64::from(mp);
    let at_n = magnitude(x, n);
    if at_n <= half {
        secant(x, beyond_argument(x), f64::from(mp))
    } else {
        secant(x, n, half + at_n)
    }
}

fn beyond_argument(x: f64) -> i32 {
    ((1.1 * x.abs()) as i32).saturating_add(1)
}

/// About how many decimal places of the Bessel function of this order are zero at x.
fn magnitude(x: f64, order: i32) -> f64 {
    let order = f64::from(order);
    0.5 * log10(6.28 * order) - order * log10(1.36 * x.abs() / order)
}

/// Secant steps towards the order that has the magnitude wanted, until one repeats or 20 are made.
fn secant(x: f64, start: i32, wanted: f64) -> Result<Vec<i32>, OutOfRange> {
    let mut tried = Vec::new();
    let mut attempt = |order: i32| {
        if !(LEAST_ORDER..=GREATEST_ORDER).contains(&order) {
            return Err(OutOfRange(order));
        }
        tried.push(order);
        Ok((order, magnitude(x, order) - wanted))
    };
    let mut before = attempt(start)?;
    let mut last = attempt(start + 5)?;
    for _ in 0..20 {
        let step = f64::from(last.0 - before.0) / (1.0 - before.1 / last.1);
        let next = attempt((f64::from(last.0) - step) as i32)?;
        if next.0 == last.0 {
            break;
        }
        before = last;
        last = next;
    }
    Ok(tried)
}
