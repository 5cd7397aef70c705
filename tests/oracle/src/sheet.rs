//! A plain reading of document 02's Card 8: the angular pair of one mode for each c of a list at each x
//! of another.
//!
//! Written from the card's words. What it takes from elsewhere are single answers: the refusals of an
//! angular record and refusal 10 of a row from the reading, the values from the Rust.

use std::fmt;

use crate::answer::{self, Build};
use crate::reading;
use crate::record::{Kind, Record, in_bits};

const MOST_PARAMETERS: usize = 32;
const MOST_ARGUMENTS: usize = 64;

/// What a call asks for, but for the block that it lends.
#[derive(Clone, Debug)]
pub struct Sheet {
    pub kind: Kind,
    pub m: u16,
    pub n: u16,
    pub allowance: u32,
    pub cs: Vec<f64>,
    pub xs: Vec<f64>,
}

impl Sheet {
    /// How many places the pairs take.
    pub fn places(&self) -> usize {
        2 * self.cs.len() * self.xs.len()
    }

    /// What the first places of a block of this length hold after the call, the others being as lent; or
    /// the refusal, after which all are.
    pub fn answer(&self, block_length: usize) -> Result<Vec<f64>, u8> {
        if let Some(refusal) = self.refusal(block_length) {
            return Err(refusal);
        }
        if self.cs.is_empty() || self.xs.is_empty() {
            return Ok(Vec::new());
        }
        let mut modes = Vec::new();
        for &c in &self.cs {
            modes.push(self.with_value_at_n(c)?);
        }
        let mut pairs = Vec::new();
        for mode in &modes {
            for &x in &self.xs {
                pairs.extend(answer::aswfa(Build::PowerRule, self.kind, mode, x));
            }
        }
        Ok(pairs)
    }

    /// The refusals that no row is needed for: 4, which is of m and n alone, each c, each x, 13.
    pub fn refusal(&self, block_length: usize) -> Option<u8> {
        let angular = |c: f64, x: f64| {
            reading::refusal(&Record {
                x,
                ..self.record(c)
            })
        };
        let too_long = self.cs.len() > MOST_PARAMETERS || self.xs.len() > MOST_ARGUMENTS;
        angular(0.0, 0.0)
            .or_else(|| self.cs.iter().find_map(|&c| angular(c, 0.0)))
            .or_else(|| self.xs.iter().find_map(|&x| angular(0.0, x)))
            .or_else(|| (too_long || block_length < self.places()).then_some(13))
    }

    /// The angular record of a c, with zeros for cv and x, which nothing refuses.
    fn record(&self, c: f64) -> Record {
        Record {
            operation: match self.kind {
                Kind::Prolate => 3,
                Kind::Oblate => 4,
            },
            m: self.m,
            n: self.n,
            allowance: self.allowance,
            c,
            cv: 0.0,
            x: 0.0,
        }
    }

    /// The same with the value at n of the row of this c, which has the allowance whole; or refusal 10.
    fn with_value_at_n(&self, c: f64) -> Result<Record, u8> {
        let Sheet { kind, m, n, .. } = *self;
        reading::row(kind, m, n, c, self.allowance).map_err(|reading::OutOfSteps| 10)?;
        let values = answer::segv(kind, m, n, c);
        Ok(Record {
            cv: values[usize::from(n - m)],
            ..self.record(c)
        })
    }
}

impl fmt::Display for Sheet {
    fn fmt(&self, out: &mut fmt::Formatter<'_>) -> fmt::Result {
        let Sheet {
            kind,
            m,
            n,
            allowance,
            ..
        } = self;
        write!(out, "{kind:?} m {m} n {n} allowance {allowance}")?;
        for (name, list) in [("c", &self.cs), ("x", &self.xs)] {
            write!(out, ", {} {name}", list.len())?;
            for value in list {
                write!(out, " {}", in_bits(*value))?;
            }
        }
        Ok(())
    }
}
