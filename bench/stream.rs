//! Times the record program on streams of one sort of record, from a file and through a pipe, into
//! nothing, a file and a pipe, and says whether the target is met; then as a co-process that is asked
//! record by record. Beside it runs the oracle's program built for release, or an earlier record program,
//! which the argument names.

#[allow(dead_code)]
mod measure;
mod records;

use std::fmt::Debug;
use std::fs::{self, File};
use std::io::{Read, Write};
use std::process::{Command, Stdio};
use std::thread;

use measure::{Measured, seconds, short, time, verdict};
use oracle::answer::{Build, record_lines, stream_lines};
use oracle::record::{Form, Record, Written};
use records::{angular, both_kinds, first_kind, radial, refused, refused_in_turn, row};

const OURS: &str = "target/bin/spheroidal";
const ORACLE: &str = "target/bench/oracle";
const STREAM: &str = "target/bench/stream.bin";
const THEIR_STREAM: &str = "target/bench/their_stream.bin";
const LINES: &str = "target/bench/lines.txt";
const ROUNDS: usize = 9;
/// Of refused records, in 1e6 bytes read a second.
const TARGET: f64 = 100.0;
/// Beside an earlier program: how many times as fast, at the least, and more rounds to tell it.
const EARLIER_TARGET: f64 = 0.95;
const EARLIER_ROUNDS: usize = 25;
/// How many records are written one by one, and how many asked.
const WRITTEN: usize = 200_000;
const ASKED: usize = 10_000;

/// Where the records come from.
#[derive(Clone, Copy, Debug)]
enum Source {
    File,
    Pipe,
    /// A pipe with a write for each record.
    Records,
}

/// Where the lines go.
#[derive(Clone, Copy, Debug)]
enum Sink {
    Nothing,
    File,
    Pipe,
}

const WAYS: [(Source, Sink); 4] = [
    (Source::File, Sink::Nothing),
    (Source::File, Sink::File),
    (Source::File, Sink::Pipe),
    (Source::Pipe, Sink::Pipe),
];

/// In which forms the records are written.
#[derive(Clone, Copy, Debug)]
enum Forms {
    Short,
    Long,
    /// In turn.
    Both,
}

/// The program that runs in turn with ours.
struct Beside {
    program: String,
    rounds: usize,
    /// It knows the short form alone.
    earlier: bool,
}

/// A stream of one sort of record.
struct Sort {
    name: &'static str,
    count: usize,
    record: fn(usize) -> Record,
    forms: Forms,
    target: Option<f64>,
}

/// The bytes of records, and the file that holds them.
struct Stream {
    bytes: Vec<u8>,
    file: &'static str,
}

impl Stream {
    /// What is written at once to a pipe.
    fn pieces(&self, source: Source) -> Vec<&[u8]> {
        match source {
            Source::File => vec![],
            Source::Pipe => vec![&self.bytes],
            Source::Records => each_record(&self.bytes).collect(),
        }
    }
}

/// The records of a stream, each for itself.
fn each_record(mut stream: &[u8]) -> impl Iterator<Item = &[u8]> {
    std::iter::from_fn(move || {
        let mark = *stream.first_chunk()?;
        let form = Form::of_mark(mark).expect("a record");
        let (record, rest) = stream.split_at(form.length());
        stream = rest;
        Some(record)
    })
}

impl Sort {
    fn written(&self, forms: Forms, count: usize, file: &'static str) -> Stream {
        let bytes_of = |number: usize| {
            let form = match forms {
                Forms::Short => Form::Short,
                Forms::Long => Form::Long,
                Forms::Both => Form::BOTH[number % 2],
            };
            let record = (self.record)(number);
            Written { form, record }.to_bytes()
        };
        let bytes: Vec<u8> = (0..count).flat_map(bytes_of).collect();
        fs::write(file, &bytes).expect("target/bench is there");
        Stream { bytes, file }
    }

    /// What our program reads, and the one beside it: an earlier one gets the same in the short form.
    fn streams(&self, beside: &Beside, count: usize) -> [Stream; 2] {
        let their_forms = if beside.earlier {
            Forms::Short
        } else {
            self.forms
        };
        [
            self.written(self.forms, count, STREAM),
            self.written(their_forms, count, THEIR_STREAM),
        ]
    }

    /// A line of the first table for each way.
    fn report(&self, beside: &Beside) {
        let [ours, theirs] = self.streams(beside, self.count);
        let expected = stream_lines(Build::PowerRule, &ours.bytes);
        for (program, stream) in [(OURS, &ours), (&*beside.program, &theirs)] {
            run(program, stream, Source::File, Sink::File);
            let printed = fs::read_to_string(LINES).expect("lines of text");
            let same = printed == expected;
            assert!(same, "{}: the lines of {program} differ", self.name);
        }
        for (source, sink) in WAYS {
            let measured = beside.measured([&ours, &theirs], source, sink);
            let megabytes = |bytes: usize| bytes as f64 / 1e6 / measured.ours;
            let (reached, target) = if beside.earlier {
                (measured.factor(), Some(EARLIER_TARGET))
            } else {
                (megabytes(ours.bytes.len()), self.target)
            };
            println!(
                "| {} | {} | {} | {} | {} | {} | {:.0} | {} | {} | {} |",
                self.name,
                word(self.forms),
                word(source),
                word(sink),
                short(megabytes(ours.bytes.len())),
                short(megabytes(expected.len())),
                self.count as f64 / 1e3 / measured.ours,
                measured.factors(),
                target.map_or("none".to_string(), |target| target.to_string()),
                verdict(reached, target),
            );
        }
    }

    /// A line of the second table.
    fn report_one_by_one(&self, beside: &Beside) {
        let count = self.count.min(WRITTEN);
        let [ours, theirs] = self.streams(beside, count);
        let measured = beside.measured([&ours, &theirs], Source::Records, Sink::Pipe);
        let asked: Vec<(&[u8], String)> = each_record(&ours.bytes)
            .take(ASKED)
            .enumerate()
            .map(|(number, bytes)| {
                let record = (self.record)(number);
                (bytes, record_lines(Build::PowerRule, number, &record))
            })
            .collect();
        let rounds = (0..ROUNDS).map(|_| round_trips(&asked));
        let each = rounds.fold(f64::INFINITY, f64::min) / asked.len() as f64;
        println!(
            "| {} | {} | {:.0} | {} | {:.0} | {} |",
            self.name,
            word(self.forms),
            count as f64 / 1e3 / measured.ours,
            measured.factors(),
            1.0 / each,
            time(each),
        );
    }
}

fn word(name: impl Debug) -> String {
    format!("{name:?}").to_lowercase()
}

impl Beside {
    /// Our program and this one in turn, each on its stream.
    fn measured(&self, [ours, theirs]: [&Stream; 2], source: Source, sink: Sink) -> Measured {
        Measured::rounds(
            self.rounds,
            || run(OURS, ours, source, sink),
            || run(&self.program, theirs, source, sink),
        )
    }
}

/// A run's time, its start included.
fn run(program: &str, stream: &Stream, source: Source, sink: Sink) -> f64 {
    let input = match source {
        Source::File => File::open(stream.file)
            .expect("the stream was written")
            .into(),
        Source::Pipe | Source::Records => Stdio::piped(),
    };
    let pieces = stream.pieces(source);
    let output = match sink {
        Sink::Nothing => Stdio::null(),
        Sink::File => File::create(LINES).expect("target/bench is there").into(),
        Sink::Pipe => Stdio::piped(),
    };
    seconds(|| {
        let mut child = Command::new(program)
            .stdin(input)
            .stdout(output)
            .spawn()
            .expect("the program runs");
        let to = child.stdin.take();
        thread::scope(|scope| {
            scope.spawn(move || {
                if let Some(mut pipe) = to {
                    let write = |piece| pipe.write_all(piece).expect("the pipe can be written");
                    pieces.into_iter().for_each(write);
                }
            });
            if let Some(mut pipe) = child.stdout.take() {
                let mut buffer = vec![0; 1 << 16];
                while pipe.read(&mut buffer).expect("the pipe can be read") > 0 {}
            }
        });
        assert!(child.wait().expect("the program ends").success());
    })
}

/// The time in which a program that keeps running answers all records, each before the next is written.
fn round_trips(asked: &[(&[u8], String)]) -> f64 {
    let mut child = Command::new(OURS)
        .stdin(Stdio::piped())
        .stdout(Stdio::piped())
        .spawn()
        .expect("the program runs");
    let mut to = child.stdin.take().expect("a pipe");
    let mut from = child.stdout.take().expect("a pipe");
    let mut buffer = vec![0; 1 << 16];
    let taken = seconds(|| {
        for (record, lines) in asked {
            to.write_all(record).expect("the pipe can be written");
            let answer = &mut buffer[..lines.len()];
            from.read_exact(answer).expect("the pipe can be read");
            assert!(answer == lines.as_bytes(), "the lines differ: {lines}");
        }
    });
    drop(to);
    assert!(child.wait().expect("the program ends").success());
    taken
}

const fn sort(
    name: &'static str,
    count: usize,
    record: fn(usize) -> Record,
    forms: Forms,
    target: Option<f64>,
) -> Sort {
    Sort {
        name,
        count,
        record,
        forms,
        target,
    }
}

const SORTS: [Sort; 10] = [
    sort("refused 4", 3_000_000, refused, Forms::Short, Some(TARGET)),
    sort("refused 4", 3_000_000, refused, Forms::Long, Some(TARGET)),
    sort("refused 4", 3_000_000, refused, Forms::Both, Some(TARGET)),
    sort(
        "refused 3 to 8",
        3_000_000,
        refused_in_turn,
        Forms::Short,
        Some(TARGET),
    ),
    sort("angular, small modes", 50_000, angular, Forms::Short, None),
    sort("row, small modes", 10_000, row, Forms::Short, None),
    sort("row, small modes", 10_000, row, Forms::Both, None),
    sort("radial, small modes", 20_000, radial, Forms::Short, None),
    sort(
        "first kind, small modes",
        20_000,
        first_kind,
        Forms::Short,
        None,
    ),
    sort(
        "radial off the disc",
        20_000,
        both_kinds,
        Forms::Short,
        None,
    ),
];

fn main() {
    let earlier = std::env::args().nth(1);
    let beside = Beside {
        earlier: earlier.is_some(),
        rounds: earlier.as_ref().map_or(ROUNDS, |_| EARLIER_ROUNDS),
        program: earlier.unwrap_or(ORACLE.to_string()),
    };
    println!(
        "The program on a stream, best of {} rounds, its start included. Beside it in turn",
        beside.rounds
    );
    if beside.earlier {
        println!(
            "an earlier one, with all records in the short form: times as fast, median (quarters)."
        );
        println!("The target is of times as fast, by the best times and by the median.\n");
    } else {
        println!(
            "the oracle's program, which reads all before it answers and computes each row twice:"
        );
        println!("times as fast, median (quarters). The target is of MB read.\n");
    }
    println!(
        "| records | form | from | into | MB/s read | MB/s printed | 1000 records/s | times as fast | target | |"
    );
    println!("|---|---|---|---|---|---|---|---|---|---|");
    SORTS.iter().for_each(|sort| sort.report(&beside));
    println!(
        "\nA write for each record, {WRITTEN} at most, through pipes, beside the program named above; and"
    );
    println!("{ASKED} records asked one by one, each answered before the next is written.\n");
    println!("| records | form | 1000 records/s | times as fast | round trips/s | time of one |");
    println!("|---|---|---|---|---|---|");
    SORTS
        .iter()
        .for_each(|sort| sort.report_one_by_one(&beside));
}
