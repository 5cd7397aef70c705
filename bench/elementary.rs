//! Times the proved elementary functions beside the C library's, in one process: a round runs a
//! function once over the same arguments.

#[allow(dead_code)]
mod measure;

use std::hint::black_box;

use measure::{Measured, ROUNDS, seconds, short, time};

type Function = extern "C" fn(f64) -> f64;

unsafe extern "C" {
    safe fn elementary_sine(x: f64) -> f64;
    safe fn elementary_cosine(x: f64) -> f64;
    safe fn elementary_log10(x: f64) -> f64;
    safe fn elementary_arctangent(x: f64) -> f64;
    // the C library's
    safe fn sin(x: f64) -> f64;
    safe fn cos(x: f64) -> f64;
    safe fn log10(x: f64) -> f64;
    safe fn atan(x: f64) -> f64;
}

const CALLS: usize = 1 << 16;

/// The widest of what is promised of the four.
const ALLOWED: f64 = 1.0 / (1 << 20) as f64;

/// splitmix64
fn random(state: &mut u64) -> u64 {
    *state = state.wrapping_add(0x9e37_79b9_7f4a_7c15);
    let mut z = *state;
    z = (z ^ (z >> 30)).wrapping_mul(0xbf58_476d_1ce4_e5b9);
    z = (z ^ (z >> 27)).wrapping_mul(0x94d0_49bb_1331_11eb);
    z ^ (z >> 31)
}

/// The arguments of a round, each from 64 uniform bits.
fn arguments(from: impl Fn(u64) -> f64) -> Vec<f64> {
    let mut state = 1;
    (0..CALLS).map(|_| from(random(&mut state))).collect()
}

/// Uniform from 0 (included) to 1 (not).
fn unit(bits: u64) -> f64 {
    (bits >> 11) as f64 / (1u64 << 53) as f64
}

fn uniform(least: f64, greatest: f64) -> Vec<f64> {
    arguments(|bits| least + (greatest - least) * unit(bits))
}

/// Uniform in the logarithm.
fn log_uniform(least: f64, greatest: f64) -> Vec<f64> {
    arguments(|bits| least * (greatest / least).powf(unit(bits)))
}

/// Finite doubles above zero, every pattern as likely.
fn all_binades() -> Vec<f64> {
    arguments(|bits| f64::from_bits(1 + bits % f64::MAX.to_bits()))
}

/// Independent calls: the time of one is what a caller pays in a loop over an array.
fn independent(f: Function, xs: &[f64]) {
    for &x in xs {
        black_box(f(black_box(x)));
    }
}

/// A chain: each argument waits for the result before it.
fn chained(f: Function, xs: &[f64]) {
    // zero, but not for the compiler: the argument stays as it is and has to wait
    let none: u64 = black_box(0);
    let mut last: f64 = 0.0;
    for &x in xs {
        last = f(f64::from_bits(x.to_bits() | (last.to_bits() & none)));
    }
    black_box(last);
}

/// An answer that is a NaN or far off may have been fast to find: then nothing is timed.
fn compare(name: &str, ours: Function, libm: Function, xs: &[f64]) {
    for &x in xs {
        let (answer, expected) = (ours(x), libm(x));
        assert!(
            (answer - expected).abs() <= ALLOWED,
            "{name} of {x:e} gives {answer:e}, not {expected:e}"
        );
    }
}

fn report(name: &str, range: &str, ours: Function, libm: Function, xs: &[f64]) {
    compare(name, ours, libm, xs);
    let ways: [(&str, fn(Function, &[f64])); 2] =
        [("independent", independent), ("chained", chained)];
    for (label, way) in ways {
        let measured = Measured::rounds(
            ROUNDS,
            || seconds(|| way(ours, xs)),
            || seconds(|| way(libm, xs)),
        );
        println!(
            "| {name:<10} | {range:<12} | {label:<11} | {:>7} | {:>7} | {:>5} | {:<24} |",
            time(measured.ours / CALLS as f64),
            time(measured.rust / CALLS as f64),
            short(measured.ratio()),
            measured.factors(),
        );
    }
}

fn main() {
    let low = log_uniform(1.0 / (1 << 27) as f64, 1.0);
    let far = uniform(1.0, 200.0);
    let all = all_binades();
    let unit = uniform(0.0, 1.0);
    let wide = log_uniform(1e-4, 1e4);
    println!("The elementary functions beside the C library's, {ROUNDS} rounds in turn.\n");
    println!("| function | arguments | way | ours | libm | ratio | times as fast |");
    println!("|---|---|---|---|---|---|---|");
    report("sine", "2^-27 to 1", elementary_sine, sin, &low);
    report("sine", "1 to 200", elementary_sine, sin, &far);
    report("cosine", "2^-27 to 1", elementary_cosine, cos, &low);
    report("cosine", "1 to 200", elementary_cosine, cos, &far);
    report("log10", "all binades", elementary_log10, log10, &all);
    let arctangent = elementary_arctangent;
    report("arctangent", "0 to 1", arctangent, atan, &unit);
    report("arctangent", "1 to 200", arctangent, atan, &far);
    report("arctangent", "1e-4 to 1e4", arctangent, atan, &wide);
}
