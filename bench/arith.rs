//! Times the proved arithmetic beside Rust's own, in one process: a round runs a routine once over
//! the same arguments.

#[allow(dead_code)]
mod measure;

use std::hint::black_box;

use measure::{Measured, seconds, short, time};

unsafe extern "C" {
    fn arith_sqrt(x: f64) -> f64;
    fn arith_abs(x: f64) -> f64;
    fn arith_truncate(x: f64) -> i32;
    fn arith_power(y: f64, k: u32) -> f64;
}

const CALLS: usize = 1 << 16;
const ROUNDS: usize = 200;

fn proved_sqrt(x: f64) -> f64 {
    unsafe { arith_sqrt(x) }
}

#[inline(never)]
fn rust_sqrt(x: f64) -> f64 {
    x.sqrt()
}

fn proved_abs(x: f64) -> f64 {
    unsafe { arith_abs(x) }
}

#[inline(never)]
fn rust_abs(x: f64) -> f64 {
    x.abs()
}

fn proved_truncate(x: f64) -> f64 {
    unsafe { f64::from(arith_truncate(x)) }
}

#[inline(never)]
fn rust_truncate(x: f64) -> f64 {
    f64::from(x as i32)
}

fn proved_power(x: f64) -> f64 {
    unsafe { arith_power(x, 40) }
}

#[inline(never)]
fn rust_power(x: f64) -> f64 {
    let mut p = 1.0;
    for _ in 0..40 {
        p *= x;
    }
    p
}

/// splitmix64
fn random(state: &mut u64) -> u64 {
    *state = state.wrapping_add(0x9e37_79b9_7f4a_7c15);
    let mut z = *state;
    z = (z ^ (z >> 30)).wrapping_mul(0xbf58_476d_1ce4_e5b9);
    z = (z ^ (z >> 27)).wrapping_mul(0x94d0_49bb_1331_11eb);
    z ^ (z >> 31)
}

/// Independent calls: the time of one is what a caller pays in a loop over an array.
fn independent(f: fn(f64) -> f64, xs: &[f64]) {
    for &x in xs {
        black_box(f(black_box(x)));
    }
}

/// A chain: each argument waits for the result before it.
fn chained(f: fn(f64) -> f64, xs: &[f64]) {
    // zero, but not for the compiler: the argument stays as it is and has to wait
    let none: u64 = black_box(0);
    let mut last: f64 = 0.0;
    for &x in xs {
        last = f(f64::from_bits(x.to_bits() | (last.to_bits() & none)));
    }
    black_box(last);
}

type Way = fn(fn(f64) -> f64, &[f64]);

fn report(name: &str, proved: fn(f64) -> f64, rust: fn(f64) -> f64, xs: &[f64]) {
    let ways: [(&str, Way); 2] = [("independent", independent), ("chained", chained)];
    for (label, way) in ways {
        let measured = Measured::rounds(
            ROUNDS,
            || seconds(|| way(proved, xs)),
            || seconds(|| way(rust, xs)),
        );
        println!(
            "| {name:<8} | {label:<11} | {:>7} | {:>7} | {:>5} | {:<24} |",
            time(measured.ours / CALLS as f64),
            time(measured.rust / CALLS as f64),
            short(measured.ratio()),
            measured.factors(),
        );
    }
}

fn main() {
    let mut seed = 1;
    // finite doubles above zero of every exponent, and doubles between 0 and 300
    let wide: Vec<f64> = (0..CALLS)
        .map(|_| f64::from_bits(random(&mut seed) % 0x7ff0_0000_0000_0000))
        .collect();
    let near: Vec<f64> = (0..CALLS)
        .map(|_| (random(&mut seed) >> 11) as f64 / (1u64 << 53) as f64 * 300.0)
        .collect();
    println!("The arithmetic, {ROUNDS} rounds in turn.\n");
    println!("| routine | way | ours | Rust | ratio | times as fast |");
    println!("|---|---|---|---|---|---|");
    report("sqrt", proved_sqrt, rust_sqrt, &wide);
    report("abs", proved_abs, rust_abs, &near);
    report("truncate", proved_truncate, rust_truncate, &near);
    report("power 40", proved_power, rust_power, &near);
}
