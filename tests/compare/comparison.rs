//! Our program held against the oracle.

use oracle::answer::{Build, next_record, stream_lines};
use oracle::record::{Written, hex};

use crate::landed::{CLASSES, DAMAGED_STREAMS, class_of, has_landed};
use crate::program::Program;
use crate::tally::Tally;

pub struct Comparison {
    /// None as long as nothing has landed.
    program: Option<Program>,
    pub classes: Vec<Tally>,
    pub not_compared: [usize; CLASSES.len()],
    /// Faults of a whole stream rather than of one record.
    pub streams: Tally,
    /// Streams that arrive in pieces.
    pub pieces: Tally,
}

impl Comparison {
    pub fn new(program: Option<Program>) -> Comparison {
        Comparison {
            program,
            classes: CLASSES.iter().map(|(name, _)| Tally::new(name)).collect(),
            not_compared: [0; CLASSES.len()],
            streams: Tally::new("whole streams"),
            pieces: Tally::new("streams in pieces through a pipe"),
        }
    }

    /// Sends records that have landed as one stream; `expected` holds each one's lines.
    pub fn compare_records(&mut self, records: &[Written], expected: &[String]) {
        let Some(program) = &self.program else { return };
        if records.is_empty() {
            return;
        }
        let stream: Vec<u8> = records.iter().flat_map(Written::to_bytes).collect();
        let answer = program.lines(&stream).map(|lines| normal(&lines));
        let printed = answer.as_deref().unwrap_or_default();
        let (groups, strays) = by_record(printed, records.len());
        let fault = match &answer {
            Err(fault) => Some(fault.clone()),
            Ok(_) => stream_fault(printed, &groups, &strays),
        };
        let sound = fault.is_none();
        self.streams.count(sound, || fault.unwrap_or_default());
        for ((written, expected), printed) in records.iter().zip(expected).zip(&groups) {
            let tally = &mut self.classes[class_of(written.record.operation)];
            tally.count(expected == printed, || {
                format!("{written}\n{}", first_difference(expected, printed))
            });
        }
    }

    pub fn compare_damaged(&mut self, stream: &[u8]) {
        let program = self.program.as_ref();
        let Some(program) = program.filter(|_| stream_has_landed(stream)) else {
            self.not_compared[DAMAGED_STREAMS] += 1;
            return;
        };
        let expected = stream_lines(Build::PowerRule, stream);
        let printed = program.lines(stream).map(|lines| normal(&lines));
        self.classes[DAMAGED_STREAMS].count(printed.as_ref() == Ok(&expected), || {
            let digits: String = stream.iter().map(|byte| format!("{byte:02x}")).collect();
            format!("{digits}\n{}", fault(&expected, &printed))
        });
    }

    /// The pieces of a stream whose operations have landed.
    pub fn compare_pieces(&mut self, pieces: &[Vec<u8>]) {
        let Some(program) = &self.program else { return };
        let stream = pieces.concat();
        let expected = stream_lines(Build::PowerRule, &stream);
        let printed = program.lines_of_pieces(pieces).map(|lines| normal(&lines));
        self.pieces.count(printed.as_ref() == Ok(&expected), || {
            let (bytes, pieces) = (stream.len(), pieces.len());
            let fault = fault(&expected, &printed);
            format!("{bytes} bytes in {pieces} pieces\n{fault}")
        });
    }
}

/// Why a stream was not answered, or where its lines differ.
fn fault(expected: &str, printed: &Result<String, String>) -> String {
    match printed {
        Ok(printed) => first_difference(expected, printed),
        Err(fault) => format!("    {fault}"),
    }
}

/// Whether damaged streams have landed, and with them the operations of the stream's sound records.
pub fn stream_has_landed(mut stream: &[u8]) -> bool {
    let records = std::iter::from_fn(|| next_record(&mut stream)).flatten();
    let mut classes = records.map(|record| class_of(record.operation));
    has_landed(DAMAGED_STREAMS) && classes.all(has_landed)
}

/// What is wrong with the lines as a whole, whatever each record's own lines are.
fn stream_fault(printed: &str, groups: &[String], strays: &[String]) -> Option<String> {
    if let Some(stray) = strays.first() {
        Some(format!("a line of no record: {stray:?}"))
    } else if groups.concat() != printed {
        Some("the lines are not in the order of the records".to_string())
    } else if !printed.ends_with('\n') {
        Some("the last line has no end".to_string())
    } else {
        None
    }
}

/// Every NaN as one pattern.
fn normal(lines: &str) -> String {
    lines
        .split_inclusive([' ', '\n'])
        .fold(String::new(), |mut out, piece| {
            let word = piece.trim_end_matches([' ', '\n']);
            match u64::from_str_radix(word, 16) {
                Ok(bits) if word.len() == 16 && f64::from_bits(bits).is_nan() => {
                    out += &hex(f64::NAN);
                    out += &piece[word.len()..];
                }
                _ => out += piece,
            }
            out
        })
}

/// The lines of each record, and those that name no record of the stream.
fn by_record(lines: &str, records: usize) -> (Vec<String>, Vec<String>) {
    let mut groups = vec![String::new(); records];
    let mut strays = Vec::new();
    for line in lines.split_inclusive('\n') {
        let number = line
            .split_whitespace()
            .nth(1)
            .and_then(|word| word.parse::<usize>().ok());
        match number.and_then(|number| groups.get_mut(number)) {
            Some(group) => *group += line,
            None => strays.push(line.to_string()),
        }
    }
    (groups, strays)
}

/// The first pair of lines in which the two differ.
fn first_difference(expected: &str, printed: &str) -> String {
    let mut expected = expected.split_inclusive('\n');
    let mut printed = printed.split_inclusive('\n');
    loop {
        let pair = (expected.next(), printed.next());
        if pair.0 != pair.1 {
            let show = |line: Option<&str>| format!("{:?}", line.unwrap_or("(no line)"));
            return format!(
                "    oracle:  {}\n    program: {}",
                show(pair.0),
                show(pair.1)
            );
        }
        if pair == (None, None) {
            return "    the same lines".to_string();
        }
    }
}
