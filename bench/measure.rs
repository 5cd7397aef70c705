//! What the benchmarks share: rounds in which both sides run in turn, and what comes of them.

use std::time::Instant;

pub const ROUNDS: usize = 61;

pub fn seconds(run: impl FnOnce()) -> f64 {
    let start = Instant::now();
    run();
    start.elapsed().as_secs_f64()
}

/// Each side's best time, and the ratios (our time to the Rust's) of all rounds in order of size.
pub struct Measured {
    pub ours: f64,
    pub rust: f64,
    ratios: Vec<f64>,
}

impl Measured {
    /// Runs both sides in turn; each answers its own time. Which goes first changes from round to
    /// round, so that neither always finds the caches as the other left them.
    pub fn rounds(
        count: usize,
        mut ours: impl FnMut() -> f64,
        mut rust: impl FnMut() -> f64,
    ) -> Measured {
        let mut measured = Measured {
            ours: f64::INFINITY,
            rust: f64::INFINITY,
            ratios: Vec::new(),
        };
        for round in 0..count {
            let (our_time, rust_time) = if round % 2 == 0 {
                let first = ours();
                (first, rust())
            } else {
                let first = rust();
                (ours(), first)
            };
            measured.ours = measured.ours.min(our_time);
            measured.rust = measured.rust.min(rust_time);
            measured.ratios.push(our_time / rust_time);
        }
        measured.ratios.sort_by(f64::total_cmp);
        measured
    }

    /// Of the best times.
    pub fn ratio(&self) -> f64 {
        self.ours / self.rust
    }

    /// Of the rounds.
    pub fn median(&self) -> f64 {
        self.quarter(2)
    }

    fn quarter(&self, quarter: usize) -> f64 {
        self.ratios[(self.ratios.len() - 1) * quarter / 4]
    }

    /// How many times as fast ours surely is: by the best times and by the median of the rounds. On
    /// a busy machine the longer side is interrupted more often, which the best times do not show.
    pub fn factor(&self) -> f64 {
        1.0 / self.ratio().max(self.median())
    }

    /// How many times as fast ours is by the median of the rounds, with their quarters as spread.
    pub fn factors(&self) -> String {
        let [low, middle, high] = [3, 2, 1].map(|quarter| short(1.0 / self.quarter(quarter)));
        format!("{middle} ({low} to {high})")
    }
}

/// Two digits at least, four where they stand before the point.
pub fn short(number: f64) -> String {
    match number {
        100.0.. => format!("{number:.0}"),
        10.0.. => format!("{number:.1}"),
        0.1.. => format!("{number:.2}"),
        _ => format!("{number:.3}"),
    }
}

/// A time in the unit that suits it.
pub fn time(seconds: f64) -> String {
    match seconds {
        1e-3.. => format!("{} ms", short(seconds * 1e3)),
        1e-6.. => format!("{} µs", short(seconds * 1e6)),
        _ => format!("{} ns", short(seconds * 1e9)),
    }
}

/// What is said of a target, none where there is none.
pub fn verdict(reached: f64, target: Option<f64>) -> &'static str {
    match target {
        None => "",
        Some(target) if reached >= target => "PASS",
        Some(_) => "MISSED",
    }
}
