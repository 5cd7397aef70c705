//! Holds the library's sheets against its single calls and against the oracle's reading of Card 8.

#[path = "../compare/command.rs"]
mod command;
mod drawing;
#[allow(dead_code)]
#[path = "../compare/generator.rs"]
mod generator;
mod library;
#[allow(dead_code)]
#[path = "../compare/random.rs"]
mod random;
#[path = "../compare/tally.rs"]
mod tally;

use std::collections::BTreeMap;
use std::fmt;
use std::process::ExitCode;

use drawing::Drawing;
use oracle::record::{in_bits, same};
use oracle::sheet::Sheet;
use tally::Tally;

const DEFAULT_SHEETS: usize = 20_000;
const DEFAULT_SEED: u64 = 20_261_117;

/// Places before and behind the block that is lent.
const BESIDE: usize = 16;

struct Tallies {
    single_calls: Tally,
    reading: Tally,
    not_lent: Tally,
    /// How many sheets had which number, 0 among them.
    numbers: BTreeMap<u8, usize>,
    pairs: usize,
    /// Accepted ones of 32 c and 64 x.
    full: usize,
    /// Accepted ones without a pair.
    empty: usize,
    /// Refused 5, 6 or 8 for an element past the limit of its list.
    past_limit: usize,
    /// Refused 10 although the row of the first c was not.
    later_row: usize,
}

fn main() -> ExitCode {
    let Some((count, seed)) = command::count_and_seed("sheets", DEFAULT_SHEETS, DEFAULT_SEED)
    else {
        return ExitCode::from(2);
    };
    println!("{count} fresh sheets, seed {seed}");
    let mut tallies = Tallies {
        single_calls: Tally::new("number and block, by single calls"),
        reading: Tally::new("number and block, by the oracle"),
        not_lent: Tally::new("places beside the block"),
        numbers: BTreeMap::new(),
        pairs: 0,
        full: 0,
        empty: 0,
        past_limit: 0,
        later_row: 0,
    };
    let mut drawing = Drawing::new(seed);
    for _ in 0..count {
        let (sheet, length) = drawing.sheet();
        let contents = drawing.contents(BESIDE + length + BESIDE);
        tallies.compare(&sheet, &contents);
    }
    tallies.report()
}

/// The pairs that a call is to give, or its refusal.
type Expected = Result<Vec<f64>, u8>;

fn number_of(expected: &Expected) -> u8 {
    *expected.as_ref().err().unwrap_or(&0)
}

impl Tallies {
    /// One call; all places but the first and the last of them are lent to it.
    fn compare(&mut self, sheet: &Sheet, contents: &[f64]) {
        let lent = BESIDE..contents.len() - BESIDE;
        let mut places = contents.to_vec();
        let call = Call {
            number: library::sheet(sheet, &mut places[lent.clone()]),
            sheet,
            before: &contents[lent.clone()],
            after: &places[lent.clone()],
        };
        call.hold(
            &mut self.single_calls,
            &library::by_single_calls(sheet, lent.len()),
        );
        let expected = sheet.answer(lent.len());
        call.hold(&mut self.reading, &expected);
        let kept = same_bits(&places[..lent.start], &contents[..lent.start])
            && same_bits(&places[lent.end..], &contents[lent.end..]);
        self.not_lent.count(kept, || call.to_string());
        self.note(sheet, &expected);
    }

    fn note(&mut self, sheet: &Sheet, expected: &Expected) {
        *self.numbers.entry(number_of(expected)).or_default() += 1;
        match expected {
            Ok(pairs) => {
                self.pairs += pairs.len() / 2;
                self.full += usize::from(pairs.len() == 2 * 32 * 64);
                self.empty += usize::from(pairs.is_empty());
            }
            Err(10) => {
                let first = library::value_at_n(sheet, sheet.cs[0]);
                self.later_row += usize::from(first.is_ok());
            }
            Err(4 | 13) => {}
            Err(number) => {
                let mut limited = sheet.clone();
                limited.cs.truncate(32);
                limited.xs.truncate(64);
                let refusal = limited.refusal(limited.places());
                self.past_limit += usize::from(refusal != Some(*number));
            }
        }
    }

    fn report(&self) -> ExitCode {
        let numbers = self.numbers.iter().map(|(number, count)| match number {
            0 => format!("{count} accepted"),
            _ => format!("{count} refused {number}"),
        });
        println!("  {}", numbers.collect::<Vec<String>>().join(", "));
        println!(
            "  accepted: {} pairs; {} sheets of 32 c and 64 x, {} without a pair",
            self.pairs, self.full, self.empty
        );
        println!(
            "  refused: {} for an element past the 32 c or the 64 x, {} for a row after the first",
            self.past_limit, self.later_row
        );
        command::report(&[&self.single_calls, &self.reading, &self.not_lent])
    }
}

/// A call that has been made, with the block before and after it.
struct Call<'a> {
    sheet: &'a Sheet,
    number: u8,
    before: &'a [f64],
    after: &'a [f64],
}

impl Call<'_> {
    /// Compares the number, the places of the pairs, any NaN equal to any NaN, and the bits of all
    /// others.
    fn hold(&self, tally: &mut Tally, expected: &Expected) {
        let Call { before, after, .. } = *self;
        let pairs = expected.as_deref().unwrap_or_default();
        let right = |at: usize| match pairs.get(at) {
            Some(&place) => same(after[at], place),
            None => after[at].to_bits() == before[at].to_bits(),
        };
        let other = (0..before.len()).find(|&at| !right(at));
        let number = number_of(expected);
        tally.count(self.number == number && other.is_none(), || {
            let place = other.map_or(String::new(), |at| {
                let wanted = *pairs.get(at).unwrap_or(&before[at]);
                let [found, wanted] = [after[at], wanted].map(in_bits);
                format!(", place {at} {found}, expected {wanted}")
            });
            format!("{self}, expected {number}{place}")
        });
    }
}

impl fmt::Display for Call<'_> {
    fn fmt(&self, out: &mut fmt::Formatter<'_>) -> fmt::Result {
        let Call { sheet, number, .. } = self;
        write!(
            out,
            "{sheet}, block of {}: number {number}",
            self.before.len()
        )
    }
}

fn same_bits(left: &[f64], right: &[f64]) -> bool {
    let bits = |place: &f64| place.to_bits();
    left.iter().map(bits).eq(right.iter().map(bits))
}
