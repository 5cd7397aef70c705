//! The oracle: what a program that keeps documents 01 and 02 must print.
//!
//! Values come from the Rust original, built from its text; step numbers, brackets, `Z` lines, DLMF
//! rows and refusals come from a plain reading of documents 01 and 02, since the Rust has none of
//! these.

pub mod answer;
pub mod elementary;
pub mod orders;
pub mod power_rule;
pub mod reading;
pub mod record;
pub mod sheet;
pub mod xsf;
