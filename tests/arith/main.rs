//! Holds the arithmetic crate, linked as a static library, against the hardware and the power rule.

mod inputs;
#[allow(dead_code)]
#[path = "../oracle/src/power_rule.rs"]
mod power_rule;
#[allow(dead_code)]
#[path = "../compare/random.rs"]
mod random;
#[path = "../compare/tally.rs"]
mod tally;

use std::process::ExitCode;

use inputs::{Draw, specials};
use random::Random;
use tally::Tally;

const DEFAULT_COUNT: u64 = 10_000_000;
const SEED: u64 = 754;

/// Largest exponent tried; the program's own stay below 200.
const LARGEST_EXPONENT: u64 = 400;

unsafe extern "C" {
    safe fn arith_sqrt(x: f64) -> f64;
    safe fn arith_truncate(x: f64) -> i32;
    safe fn arith_power(y: f64, k: u32) -> f64;
    safe fn arith_half_power(y: f64, k: u32) -> f64;
    safe fn arith_abs(x: f64) -> f64;
    safe fn arith_lesser(a: f64, b: f64) -> f64;
    safe fn arith_greater(a: f64, b: f64) -> f64;
    safe fn arith_to_bits(x: f64) -> u64;
    safe fn arith_from_bits(bits: u64) -> f64;
}

fn main() -> ExitCode {
    let words: Vec<String> = std::env::args().skip(1).collect();
    let count = match words.first().map(|word| word.parse()) {
        None => DEFAULT_COUNT,
        Some(Ok(count)) if words.len() == 1 => count,
        Some(_) => {
            eprintln!("usage: arith [N]");
            return ExitCode::from(2);
        }
    };
    println!("{count} random inputs for each function, a fiftieth for powers, seed {SEED}");
    let mut random = Random::new(SEED);
    report(&[
        check_sqrt(&mut random, count),
        check_truncate(&mut random, count),
        check_power(&mut random, count / 50),
        check_half_power(&mut random, count / 50),
        check_abs(&mut random, count),
        check_lesser(&mut random, count),
        check_greater(&mut random, count),
        check_to_bits(&mut random, count),
        check_from_bits(&mut random, count),
    ])
}

fn report(tallies: &[Tally]) -> ExitCode {
    tallies.iter().for_each(Tally::print);
    let passed: usize = tallies.iter().map(|tally| tally.passed).sum();
    let failed: usize = tallies.iter().map(|tally| tally.failed).sum();
    if failed > 0 {
        println!("First failures");
        tallies.iter().for_each(Tally::print_failures);
    }
    println!("{passed} passed, {failed} failed");
    if failed > 0 {
        ExitCode::FAILURE
    } else {
        ExitCode::SUCCESS
    }
}

fn check_sqrt(random: &mut Random, count: u64) -> Tally {
    let mut tally = Tally::new("sqrt");
    let mut check = |x: f64| expect(&mut tally, &[x], arith_sqrt(x), x.sqrt());
    specials().for_each(&mut check);
    for _ in 0..count {
        check(random.any_double());
        check(random.root_edge());
    }
    tally
}

fn check_truncate(random: &mut Random, count: u64) -> Tally {
    let mut tally = Tally::new("truncate");
    let mut check = |x: f64| {
        let (ours, expected) = (arith_truncate(x), x as i32);
        tally.count(ours == expected, || {
            format!("{} gives {ours}, not {expected}", decoded(x))
        });
    };
    specials().for_each(&mut check);
    for _ in 0..count {
        check(random.any_double());
        check(random.truncation_edge());
    }
    tally
}

fn check_power(random: &mut Random, count: u64) -> Tally {
    check_powers("power", random, count, arith_power, power_rule::whole_power)
}

fn check_half_power(random: &mut Random, count: u64) -> Tally {
    check_powers(
        "half power",
        random,
        count,
        arith_half_power,
        power_rule::half_power,
    )
}

type Power = fn(f64, u32) -> f64;

fn check_powers(
    name: &str,
    random: &mut Random,
    count: u64,
    ours: extern "C" fn(f64, u32) -> f64,
    rule: Power,
) -> Tally {
    let mut tally = Tally::new(name);
    let mut check = |y: f64, k: u32| expect(&mut tally, &[y, f64::from(k)], ours(y, k), rule(y, k));
    for y in specials() {
        (0..5)
            .chain([LARGEST_EXPONENT as u32])
            .for_each(|k| check(y, k));
    }
    for _ in 0..count {
        let k = random.below(LARGEST_EXPONENT + 1) as u32;
        check(random.power_base(), k);
    }
    tally
}

fn check_abs(random: &mut Random, count: u64) -> Tally {
    let mut tally = Tally::new("abs");
    let mut check = |x: f64| expect(&mut tally, &[x], arith_abs(x), x.abs());
    specials().for_each(&mut check);
    for _ in 0..count {
        check(random.any_double());
    }
    tally
}

fn check_lesser(random: &mut Random, count: u64) -> Tally {
    let lesser = |a: f64, b: f64| if b < a { b } else { a };
    check_choice("lesser", random, count, arith_lesser, lesser)
}

fn check_greater(random: &mut Random, count: u64) -> Tally {
    let greater = |a: f64, b: f64| if a < b { b } else { a };
    check_choice("greater", random, count, arith_greater, greater)
}

type Choice = fn(f64, f64) -> f64;

fn check_choice(
    name: &str,
    random: &mut Random,
    count: u64,
    ours: extern "C" fn(f64, f64) -> f64,
    choice: Choice,
) -> Tally {
    let mut tally = Tally::new(name);
    let mut check = |a: f64, b: f64| expect(&mut tally, &[a, b], ours(a, b), choice(a, b));
    for a in specials() {
        specials().for_each(|b| check(a, b));
    }
    for _ in 0..count {
        let (a, b) = random.pair();
        check(a, b);
    }
    tally
}

/// One pattern is written for every NaN.
fn check_to_bits(random: &mut Random, count: u64) -> Tally {
    let mut tally = Tally::new("to bits");
    let mut check = |x: f64| {
        let expected = if x.is_nan() {
            0x7ff8 << 48
        } else {
            x.to_bits()
        };
        let ours = arith_to_bits(x);
        tally.count(ours == expected, || {
            format!("{} gives {ours:016x}, not {expected:016x}", decoded(x))
        });
    };
    specials().for_each(&mut check);
    for _ in 0..count {
        check(random.any_double());
    }
    tally
}

fn check_from_bits(random: &mut Random, count: u64) -> Tally {
    let mut tally = Tally::new("from bits");
    let mut check = |x: f64| expect(&mut tally, &[x], arith_from_bits(x.to_bits()), x);
    specials().for_each(&mut check);
    for _ in 0..count {
        check(random.any_double());
    }
    tally
}

/// Counts a result: equal bit for bit, any NaN matching any NaN.
fn expect(tally: &mut Tally, arguments: &[f64], ours: f64, expected: f64) {
    let same = ours.to_bits() == expected.to_bits() || (ours.is_nan() && expected.is_nan());
    tally.count(same, || {
        let arguments: Vec<String> = arguments.iter().map(|&x| decoded(x)).collect();
        let arguments = arguments.join(" and ");
        format!(
            "{arguments} gives {}, not {}",
            decoded(ours),
            decoded(expected)
        )
    });
}

fn decoded(value: f64) -> String {
    format!("{value:?} [{:016x}]", value.to_bits())
}
