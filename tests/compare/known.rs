//! The known records of `tests/oracle/traps.txt`, whose head describes its form.

use oracle::record::{Record, hex};

pub enum Input {
    Record(Record),
    Stream(Vec<u8>),
}

pub struct Known {
    /// The line of the file, for messages.
    pub text: String,
    pub input: Input,
    /// For a record, lines without its number, each to be found in the answer; for a stream, all of
    /// its lines.
    pub expected: Vec<String>,
}

pub fn parse(file: &str) -> Result<Vec<Known>, String> {
    let lines = file.lines().map(str::trim);
    lines
        .filter(|line| !line.is_empty() && !line.starts_with('#'))
        .map(|line| known(line).ok_or_else(|| format!("not a known record: {line}")))
        .collect()
}

fn known(line: &str) -> Option<Known> {
    let (input, expected) = line.split_once(':').unwrap_or((line, ""));
    let expected = expected
        .split(';')
        .map(str::trim)
        .filter(|pattern| !pattern.is_empty());
    Some(Known {
        text: line.to_string(),
        input: input_of(input)?,
        expected: expected.map(str::to_string).collect(),
    })
}

fn input_of(text: &str) -> Option<Input> {
    let words: Vec<&str> = text.split_whitespace().collect();
    if let ["bytes", parts @ ..] = &words[..] {
        return Some(Input::Stream(bytes(&parts.concat())?));
    }
    let [operation, m, n, allowance, c, cv, x] = words[..] else {
        return None;
    };
    Some(Input::Record(Record {
        operation: operation.parse().ok()?,
        m: m.parse().ok()?,
        n: n.parse().ok()?,
        allowance: allowance.parse().ok()?,
        c: double(c)?,
        cv: double(cv)?,
        x: double(x)?,
    }))
}

fn bytes(digits: &str) -> Option<Vec<u8>> {
    let pairs = (0..digits.len()).step_by(2);
    pairs
        .map(|at| u8::from_str_radix(digits.get(at..at + 2)?, 16).ok())
        .collect()
}

fn double(word: &str) -> Option<f64> {
    let inside = |name: &str| word.strip_prefix(name)?.strip_suffix(')');
    if let Some(bits) = word.strip_prefix("0x") {
        u64::from_str_radix(bits, 16).ok().map(f64::from_bits)
    } else if let Some(value) = inside("prev(") {
        double(value).map(f64::next_down)
    } else if let Some(value) = inside("next(") {
        double(value).map(f64::next_up)
    } else {
        word.parse().ok()
    }
}

/// Whether a printed line has the words of a pattern, its record number left out. Further words may
/// follow.
pub fn matches(pattern: &str, line: &str) -> bool {
    let mut words = line
        .split(' ')
        .enumerate()
        .filter(|&(at, _)| at != 1)
        .map(|(_, word)| word);
    pattern.split_whitespace().all(|expected| {
        words
            .next()
            .is_some_and(|word| expected == "*" || word == expected || word == bits(expected))
    })
}

/// A decimal double of a pattern as it is printed.
fn bits(expected: &str) -> String {
    expected.parse().map_or(String::new(), hex)
}
