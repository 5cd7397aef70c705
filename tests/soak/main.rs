//! One long stream, of both forms in turn, into our program and into the oracle at once. Each side's lines become checksums
//! as they come, so that nothing is kept; the memory of our program is watched meanwhile.

#[allow(dead_code)]
#[path = "../compare/generator.rs"]
mod generator;
#[allow(dead_code)]
#[path = "../compare/landed.rs"]
mod landed;
#[allow(dead_code)]
#[path = "../compare/random.rs"]
mod random;
mod sums;
#[path = "../compare/tally.rs"]
mod tally;

use std::fs;
use std::io::{self, BufRead, BufReader, Write};
use std::path::Path;
use std::process::{Child, ChildStdout, Command, ExitCode, Stdio};
use std::sync::mpsc::{Receiver, SyncSender, sync_channel};
use std::thread;

use generator::{Generator, Size, Sizes};
use landed::PROGRAM;
use oracle::answer::{Build, record_lines};
use oracle::record::Written;
use sums::Sums;
use tally::Tally;

const USAGE: &str = "usage: soak [N] [SEED] | soak --records FIRST LAST SEED";
const DEFAULT_RECORDS: u64 = 10_000_000;
const DEFAULT_SEED: u64 = 20_261_116;
const NOT_RUN: u8 = 2;

/// Each block of records has a generator of its own, so that one can be made again alone. As it is even,
/// the forms alternate from block to block too.
pub const BLOCK: u64 = 100_000;
/// Records handed on at once, and how many such pieces may wait for the oracle.
const PIECE: u64 = 500;
const WAITING: usize = 64;

/// Mostly small modes: a large one costs the oracle as much as fifty.
const SIZES: Sizes = &[
    (940, Size::Small),
    (15, Size::Medium),
    (40, Size::HighOrder),
    (3, Size::Large),
    (2, Size::Edge),
];

/// How far peaks of memory may lie apart, in kB: code comes in page by page as it is first run.
const CONSTANT_WITHIN: u64 = 64;

fn main() -> ExitCode {
    let words: Vec<String> = std::env::args().skip(1).collect();
    let records = words.first().is_some_and(|word| word == "--records");
    let numbers = words
        .iter()
        .skip(usize::from(records))
        .map(|word| word.parse().ok());
    let ended = match (records, numbers.collect::<Option<Vec<u64>>>().as_deref()) {
        (true, Some(&[first, last, seed])) => write_blocks(first, last, seed),
        (false, Some(&[0, ..])) => Err(USAGE.to_string()),
        (false, Some([])) => soak(DEFAULT_RECORDS, DEFAULT_SEED),
        (false, Some(&[count])) => soak(count, DEFAULT_SEED),
        (false, Some(&[count, seed])) => soak(count, seed),
        _ => Err(USAGE.to_string()),
    };
    ended.unwrap_or_else(|message| {
        eprintln!("soak: {message}");
        eprintln!("soak: nothing was compared");
        ExitCode::from(NOT_RUN)
    })
}

fn generator(seed: u64, block: u64) -> Generator {
    Generator::alternating(seed.wrapping_add(block), SIZES)
}

fn bytes(records: &[Written]) -> Vec<u8> {
    records.iter().flat_map(Written::to_bytes).collect()
}

/// The records of some blocks, the last of them whole, to standard output.
fn write_blocks(first: u64, last: u64, seed: u64) -> Result<ExitCode, String> {
    for block in first..=last {
        let records = generator(seed, block).written(BLOCK as usize);
        let written = io::stdout().write_all(&bytes(&records));
        written.map_err(|error| error.to_string())?;
    }
    Ok(ExitCode::SUCCESS)
}

/// What our program did.
struct Ours {
    sums: Sums,
    /// Peak memory in kB after so many records.
    peaks: Vec<(u64, Option<u64>)>,
    /// Why the stream was not sent and answered to its end.
    fault: Option<String>,
}

fn soak(count: u64, seed: u64) -> Result<ExitCode, String> {
    let path = std::env::var_os("SPHEROIDAL").unwrap_or_else(|| PROGRAM.into());
    if !Path::new(&path).is_file() {
        return Err(format!(
            "our program is missing: no file {}",
            path.display()
        ));
    }
    let mut program = Command::new(&path)
        .stdin(Stdio::piped())
        .stdout(Stdio::piped())
        .spawn()
        .map_err(|error| format!("our program cannot run: {error}"))?;
    println!("{count} records of seed {seed} in one stream");
    let lines = program.stdout.take().expect("it was asked for");
    let reader = thread::spawn(move || program_sums(lines, count));
    let (sender, receiver) = sync_channel(WAITING);
    let oracle = thread::spawn(move || oracle_sums(receiver, count));
    let (peaks, fed) = feed(&mut program, &sender, count, seed);
    drop(sender);
    drop(program.stdin.take());
    let (sums, read) = reader.join().expect("reading does not panic");
    let status = program.wait().map_err(|error| error.to_string())?;
    let fault = match (status.success(), fed.and(read)) {
        (false, _) => Some(format!("our program ended with {status}")),
        (true, Err(error)) => Some(error.to_string()),
        (true, Ok(())) => None,
    };
    // The oracle names the record where it stops.
    let oracle = oracle.join().unwrap_or_else(|_| Sums::new(count));
    Ok(report(&Ours { sums, peaks, fault }, &oracle, seed))
}

/// Hands every record to both sides, and looks at our program's memory on the way.
fn feed(
    program: &mut Child,
    oracle: &SyncSender<Vec<Written>>,
    count: u64,
    seed: u64,
) -> (Vec<(u64, Option<u64>)>, io::Result<()>) {
    let mut peaks = Vec::new();
    let mut looks = [count / 100, count / 2, count].into_iter().peekable();
    let mut fed = 0;
    while fed < count {
        let mut generator = generator(seed, fed / BLOCK);
        let end = count.min(fed + BLOCK);
        while fed < end {
            let records = generator.written(PIECE.min(end - fed) as usize);
            fed += records.len() as u64;
            let input = program.stdin.as_mut().expect("it was asked for");
            if let Err(error) = input.write_all(&bytes(&records)) {
                return (peaks, Err(error));
            }
            if oracle.send(records).is_err() {
                return (peaks, Err(io::Error::other("the oracle stopped")));
            }
            while looks.next_if(|&look| fed >= look).is_some() {
                peaks.push((fed, peak_memory(program.id())));
            }
        }
    }
    (peaks, Ok(()))
}

/// In kB, as the kernel has it.
fn peak_memory(process: u32) -> Option<u64> {
    let status = fs::read_to_string(format!("/proc/{process}/status")).ok()?;
    let line = status
        .lines()
        .find_map(|line| line.strip_prefix("VmHWM:"))?;
    line.split_whitespace().next()?.parse().ok()
}

fn program_sums(lines: ChildStdout, count: u64) -> (Sums, io::Result<()>) {
    let mut sums = Sums::new(count);
    let mut lines = BufReader::with_capacity(1 << 16, lines);
    let mut line = Vec::new();
    loop {
        line.clear();
        match lines.read_until(b'\n', &mut line) {
            Ok(0) => return (sums, Ok(())),
            Ok(_) => sums.add(&line),
            Err(error) => return (sums, Err(error)),
        }
    }
}

fn oracle_sums(pieces: Receiver<Vec<Written>>, count: u64) -> Sums {
    let mut sums = Sums::new(count);
    for (number, written) in pieces.into_iter().flatten().enumerate() {
        let lines = record_lines(Build::PowerRule, number, &written.record);
        lines
            .split_inclusive('\n')
            .for_each(|line| sums.add(line.as_bytes()));
    }
    sums
}

fn report(ours: &Ours, oracle: &Sums, seed: u64) -> ExitCode {
    for (name, sums) in [("our program", &ours.sums), ("the oracle", oracle)] {
        println!(
            "{name}: {} lines, checksum {:016x}",
            sums.whole.lines, sums.whole.hash
        );
    }
    println!("our program's peak memory:");
    let peak = |peak: Option<u64>| peak.map_or("unknown".to_string(), |peak| format!("{peak} kB"));
    for &(records, memory) in &ours.peaks {
        println!("  {} after {records} records", peak(memory));
    }
    let mut whole = Tally::new("the whole stream");
    whole.count(ours.sums.whole == oracle.whole, || {
        "the checksums differ".to_string()
    });
    let mut blocks = Tally::new(&format!("blocks of {BLOCK} records"));
    for (block, (left, right)) in ours.sums.blocks.iter().zip(&oracle.blocks).enumerate() {
        let what = || format!("block {block}: {}", reproduction(block, seed));
        // A block that was not reached has no lines on either side.
        blocks.count(left == right && right.lines > 0, what);
    }
    let mut strays = Tally::new("no line of no record");
    strays.count(ours.sums.strays.lines == 0, || {
        format!(
            "{} lines name no record of the stream",
            ours.sums.strays.lines
        )
    });
    let mut memory = Tally::new("constant memory");
    let known: Option<Vec<u64>> = ours.peaks.iter().map(|&(_, peak)| peak).collect();
    let constant = known.is_some_and(|peaks| match (peaks.iter().min(), peaks.iter().max()) {
        (Some(least), Some(most)) => peaks.len() == 3 && most - least <= CONSTANT_WITHIN,
        _ => false,
    });
    memory.count(constant, || {
        "the peaks above differ or are not known".to_string()
    });
    let mut end = Tally::new("to the end of the stream");
    end.count(ours.fault.is_none(), || {
        ours.fault.clone().unwrap_or_default()
    });
    let tallies = [&whole, &blocks, &strays, &memory, &end];
    tallies.iter().for_each(|tally| tally.print());
    tallies.iter().for_each(|tally| tally.print_failures());
    let passed: usize = tallies.iter().map(|tally| tally.passed).sum();
    let failed: usize = tallies.iter().map(|tally| tally.failed).sum();
    println!("{passed} passed, {failed} failed");
    if failed == 0 {
        ExitCode::SUCCESS
    } else {
        ExitCode::FAILURE
    }
}

/// How a block is made again. Its records then count from 0: what differs only by the number of a
/// record needs the blocks before it too.
fn reproduction(block: usize, seed: u64) -> String {
    let file = "target/oracle/block.bin";
    format!(
        "made again by\n    target/oracle/soak --records {block} {block} {seed} >{file}\n    \
         target/oracle/oracle <{file} >{file}.oracle; {PROGRAM} <{file} | diff {file}.oracle - | head"
    )
}
