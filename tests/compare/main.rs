//! Compares our program with the oracle, and the oracle with itself.

mod checks;
mod comparison;
mod damaged;
// The soak and the tests of the library use the rest of it.
#[allow(dead_code)]
mod generator;
mod known;
mod landed;
mod pieces;
mod program;
mod random;
mod replay;
mod tally;

use std::io::Write;
use std::process::ExitCode;

use oracle::answer::{Build, Route, record_lines, route};
use oracle::record::{Form, Written};

use checks::OwnChecks;
use comparison::Comparison;
use generator::Generator;
use known::{Input, Known};
use landed::{CLASSES, DAMAGED_STREAMS, any_landed, class_of, has_landed, landed_operations};
use program::Program;
use tally::Tally;

const USAGE: &str = "usage: compare [--records] [N] [SEED] [rows | small-c | radial | first-kind] | \
    compare --replay [N] [SEED]";
const KNOWN_RECORDS: &str = "tests/oracle/traps.txt";
const DEFAULT_RECORDS: usize = 20_000;
const DEFAULT_SEED: u64 = 20_261_114;

/// Records sent to our program in one stream.
const STREAM_RECORDS: usize = 20_000;

/// Status where nothing could be compared.
const NOT_RUN: u8 = 2;

struct Arguments {
    records: usize,
    seed: u64,
    fresh: Fresh,
    task: Task,
}

/// What the fresh records are.
#[derive(Clone, Copy, PartialEq, Eq)]
enum Fresh {
    All,
    /// Rows alone, DLMF rows among them.
    Rows,
    /// Rows with small c alone.
    SmallC,
    /// Operation 5 alone.
    Radial,
    /// Operation 8 alone.
    FirstKind,
}

#[derive(Clone, Copy, PartialEq, Eq)]
enum Task {
    Compare,
    /// Write the records and compare nothing.
    Records,
    /// Write the streams and the lines that the gate replays.
    Replay,
}

fn main() -> ExitCode {
    match arguments().and_then(run) {
        Ok(code) => code,
        Err(message) => {
            eprintln!("compare: {message}");
            eprintln!("compare: nothing was compared");
            ExitCode::from(NOT_RUN)
        }
    }
}

fn arguments() -> Result<Arguments, String> {
    let mut words: Vec<String> = std::env::args().skip(1).collect();
    let task = match words.first().map(String::as_str) {
        Some("--records") => Task::Records,
        Some("--replay") => Task::Replay,
        _ => Task::Compare,
    };
    if task != Task::Compare {
        words.remove(0);
    }
    let fresh = match words.last().map(String::as_str) {
        Some("rows") => Fresh::Rows,
        Some("small-c") => Fresh::SmallC,
        Some("radial") => Fresh::Radial,
        Some("first-kind") => Fresh::FirstKind,
        _ => Fresh::All,
    };
    if fresh != Fresh::All {
        words.pop();
    }
    if words.len() > 2 || (fresh != Fresh::All && task == Task::Replay) {
        return Err(USAGE.to_string());
    }
    let number = |at: usize, default: u64| match words.get(at) {
        Some(word) => word.parse().map_err(|_| USAGE.to_string()),
        None => Ok(default),
    };
    Ok(Arguments {
        records: number(0, DEFAULT_RECORDS as u64)? as usize,
        seed: number(1, DEFAULT_SEED)?,
        fresh,
        task,
    })
}

fn run(arguments: Arguments) -> Result<ExitCode, String> {
    let mut generator = match arguments.fresh {
        Fresh::All => Generator::new(arguments.seed),
        Fresh::Rows => Generator::of_rows(arguments.seed),
        Fresh::SmallC => Generator::with_small_c(arguments.seed),
        Fresh::Radial => Generator::of_radial(arguments.seed),
        Fresh::FirstKind => Generator::of_first_kind(arguments.seed),
    };
    if arguments.task == Task::Records {
        return write_records(&mut generator, arguments.records);
    }
    let file = std::fs::read_to_string(KNOWN_RECORDS).map_err(|error| error.to_string())?;
    let known = known::parse(&file)?;
    if arguments.task == Task::Replay {
        replay::write(&mut generator, arguments.records, known)?;
        return Ok(ExitCode::SUCCESS);
    }
    let program = if any_landed() {
        Some(Program::find()?)
    } else {
        None
    };
    let mut run = Run {
        own: OwnChecks::new(),
        comparison: Comparison::new(program),
    };
    run.own.check_example();
    run.known_records(known);
    let fresh = run.fresh_records(&mut generator, arguments.records);
    let operations = landed_operations();
    for stream in damaged::damaged_streams(&mut generator, &operations) {
        run.comparison.compare_damaged(&stream);
    }
    for pieces in pieces::streams_in_pieces(&mut generator, arguments.seed, &operations) {
        run.comparison.compare_pieces(&pieces);
    }
    Ok(run.report(&arguments, &fresh))
}

fn write_records(generator: &mut Generator, count: usize) -> Result<ExitCode, String> {
    let records = generator.written(count);
    let bytes: Vec<u8> = records.iter().flat_map(Written::to_bytes).collect();
    std::io::stdout()
        .write_all(&bytes)
        .map_err(|error| error.to_string())?;
    Ok(ExitCode::SUCCESS)
}

struct Run {
    own: OwnChecks,
    comparison: Comparison,
}

/// What records came to.
#[derive(Default)]
struct Figures {
    /// Records that were not refused.
    accepted: usize,
    /// Records in the long form.
    long: usize,
    /// Accepted rows with an allowance that the short form has no room for.
    wide: usize,
    z_lines: usize,
    /// `Z` lines with 1: too few of them would test nothing.
    substituted: usize,
    radial: RadialFigures,
    first_kind: RadialFigures,
    /// Records of operation 5 off the disc by their route to the second kind.
    large: usize,
    small: usize,
    order: usize,
    digits: usize,
    /// How many records have each refusal.
    refused: [usize; 13],
}

/// What radial records came to.
#[derive(Default)]
struct RadialFigures {
    lines: usize,
    /// Lines in which a number is a NaN, an infinity or zero.
    special: usize,
}

impl RadialFigures {
    fn add(&mut self, letter: char, lines: &str) {
        for line in lines.lines().filter(|line| line.starts_with(letter)) {
            self.lines += 1;
            self.special += usize::from(line.split(' ').skip(4).any(is_special));
        }
    }
}

impl Figures {
    fn add(&mut self, Written { form, record }: &Written, lines: &str) {
        match refusal_of(lines) {
            Some(number) => self.refused[number] += 1,
            None => self.accepted += 1,
        }
        self.long += usize::from(*form == Form::Long);
        let wide = record.allowance > Form::Short.largest_allowance();
        self.wide += usize::from(wide && lines.starts_with(['V', 'D']));
        for line in lines.lines().filter(|line| line.starts_with('Z')) {
            self.z_lines += 1;
            self.substituted += usize::from(line.ends_with(" 1"));
        }
        self.radial.add('F', lines);
        self.first_kind.add('G', lines);
        if lines.starts_with('F') && record.x > 0.0 {
            let count = match route(Build::PowerRule, record) {
                Route::Large => &mut self.large,
                Route::Small => &mut self.small,
                Route::Order => &mut self.order,
                Route::Digits => &mut self.digits,
            };
            *count += 1;
        }
    }

    fn print(&self) {
        println!(
            "{} in the long form, {} accepted rows with an allowance above 65535",
            self.long, self.wide
        );
        println!(
            "{} Z lines, {} of them with 1",
            self.z_lines, self.substituted
        );
        for (letter, figures) in [('F', &self.radial), ('G', &self.first_kind)] {
            println!(
                "{} {letter} lines, {} of them with a NaN, an infinity or zero",
                figures.lines, figures.special
            );
        }
        println!(
            "second kinds off the disc: {} by rmn2l; by rmn2so {} of small x, {} without an order of \
             sphy, {} without digits",
            self.large, self.small, self.order, self.digits
        );
        let refused = (1..).zip(&self.refused[1..]);
        let refused = refused.filter(|&(number, &count)| count > 0 || number > 10);
        let refused: Vec<String> = refused
            .map(|(number, count)| format!("{number}: {count}"))
            .collect();
        println!("refused, by number: {}", refused.join(", "));
    }
}

/// The refusal's number where the lines are one.
fn refusal_of(lines: &str) -> Option<usize> {
    let refusal = lines.strip_prefix('R')?;
    refusal.split_whitespace().next_back()?.parse().ok()
}

/// A NaN, an infinity or zero, as it is printed.
fn is_special(word: &str) -> bool {
    u64::from_str_radix(word, 16).is_ok_and(|bits| {
        let value = f64::from_bits(bits);
        !value.is_finite() || value == 0.0
    })
}

impl Run {
    /// Each record in every form that has room for its allowance.
    fn known_records(&mut self, known: Vec<Known>) {
        let mut records = Vec::new();
        for known in known {
            self.own.check_known(&known);
            match known.input {
                Input::Record(record) => records.extend(record.in_each_form()),
                Input::Stream(stream) => self.comparison.compare_damaged(&stream),
            }
        }
        self.records(&records, &mut Figures::default());
    }

    fn fresh_records(&mut self, generator: &mut Generator, count: usize) -> Figures {
        let mut figures = Figures::default();
        let mut left = count;
        while left > 0 {
            let records = generator.written(left.min(STREAM_RECORDS));
            left -= records.len();
            self.records(&records, &mut figures);
        }
        figures
    }

    /// Checks and compares records.
    fn records(&mut self, records: &[Written], figures: &mut Figures) {
        let mut sent = Vec::new();
        let mut expected = Vec::new();
        for written in records {
            let record = &written.record;
            let lines = record_lines(Build::PowerRule, sent.len(), record);
            self.own.check_record(record, &lines);
            figures.add(written, &lines);
            if has_landed(class_of(record.operation)) {
                sent.push(*written);
                expected.push(lines);
            } else {
                self.comparison.not_compared[class_of(record.operation)] += 1;
            }
        }
        self.comparison.compare_records(&sent, &expected);
    }

    fn report(&self, arguments: &Arguments, fresh: &Figures) -> ExitCode {
        let Arguments { records, seed, .. } = arguments;
        let what = match arguments.fresh {
            Fresh::All => "fresh records",
            Fresh::Rows => "fresh records of operations 1, 2, 6 and 7",
            Fresh::SmallC => "fresh rows with small c",
            Fresh::Radial => "fresh records of operation 5",
            Fresh::FirstKind => "fresh records of operation 8",
        };
        println!(
            "{records} {what} of seed {seed}, {} of them accepted",
            fresh.accepted
        );
        fresh.print();
        println!("The oracle's own checks");
        self.own.tallies().iter().for_each(|tally| tally.print());
        self.report_comparison();
        let tallies: Vec<&Tally> = self.tallies();
        let failed: usize = tallies.iter().map(|tally| tally.failed).sum();
        let passed: usize = tallies.iter().map(|tally| tally.passed).sum();
        if failed > 0 {
            println!("First failures");
            tallies.iter().for_each(|tally| tally.print_failures());
        }
        println!("{passed} passed, {failed} failed");
        if failed > 0 {
            ExitCode::FAILURE
        } else {
            ExitCode::SUCCESS
        }
    }

    fn report_comparison(&self) {
        println!("Our program against the oracle");
        if !any_landed() {
            println!(
                "  Our program is not there yet: no operation has landed. Only the oracle's own"
            );
            println!("  checks ran.");
        }
        for (class, (name, landed)) in CLASSES.iter().enumerate() {
            let unit = if class == DAMAGED_STREAMS {
                "streams"
            } else {
                "records"
            };
            let count = self.comparison.not_compared[class];
            if *landed {
                self.comparison.classes[class].print();
            }
            if count > 0 {
                println!("  {name:<40} not landed, not compared: {count} {unit}");
            }
        }
        if any_landed() {
            self.comparison.streams.print();
            self.comparison.pieces.print();
        }
    }

    fn tallies(&self) -> Vec<&Tally> {
        let Comparison {
            classes,
            streams,
            pieces,
            ..
        } = &self.comparison;
        let compared = classes.iter().chain([streams, pieces]);
        self.own.tallies().into_iter().chain(compared).collect()
    }
}
