//! Writes what the gate replays: the input of our programs, and the oracle's lines.

use oracle::answer::{Build, stream_lines};
use oracle::record::{Record, Written};

use crate::checks;
use crate::comparison::stream_has_landed;
use crate::damaged;
use crate::generator::Generator;
use crate::known::{Input, Known};
use crate::landed::{class_of, has_landed, landed_operations};

/// One long stream, many short ones, and one for the program that has the least room.
const STREAM: &str = "crates/spheroidal";
const STREAMS: &str = "crates/damaged_streams";
const LEAST_ROOM: &str = "crates/short_readings";

/// The test program reads its streams at once.
const MOST_STREAM_BYTES: usize = 65_536;

const LEAST_ROOM_RECORDS: usize = 800;

/// How much of its last record a stream has.
const CUT: usize = 20;

/// Document 01's example, the known records and N fresh ones, as far as their operations have landed,
/// and at the end a record that is cut short; the short streams; and a stream of records that cost
/// little.
pub fn write(generator: &mut Generator, count: usize, known: Vec<Known>) -> Result<(), String> {
    let mut records = checks::example_records().to_vec();
    let mut streams = Vec::new();
    for known in known {
        match known.input {
            Input::Record(record) => records.extend(record.in_each_form()),
            Input::Stream(stream) => streams.push(stream),
        }
    }
    records.extend(generator.written(count));
    write_stream(STREAM, &records)?;
    let operations = landed_operations();
    streams.extend(damaged::damaged_streams(generator, &operations));
    streams.extend(damaged::streams_of_other_operations(generator, &operations));
    streams.retain(|stream| stream_has_landed(stream));
    write_streams(&streams)?;
    let cheap = generator.cheap_records(LEAST_ROOM_RECORDS, &operations);
    write_stream(LEAST_ROOM, &[long_answers(), cheap].concat())
}

/// A row of 200 modes, which costs nothing as c is 0, in either form.
fn long_answers() -> Vec<Written> {
    let row = Record {
        operation: 1,
        m: 199,
        n: 398,
        allowance: 0,
        c: 0.0,
        cv: 0.0,
        x: 0.0,
    };
    row.in_each_form().collect()
}

/// The records that have landed, and at the end the first of them cut short.
fn write_stream(folder: &str, records: &[Written]) -> Result<(), String> {
    let has_landed = |written: &&Written| has_landed(class_of(written.record.operation));
    let records: Vec<Vec<u8>> = records
        .iter()
        .filter(has_landed)
        .map(Written::to_bytes)
        .collect();
    let mut stream = records.concat();
    stream.extend(&records[0][..CUT]);
    let lines = stream_lines(Build::PowerRule, &stream);
    write_pair(folder, &stream, &lines)?;
    let (count, lines) = (records.len(), lines.lines().count());
    println!("{folder}: {count} records, {lines} lines");
    Ok(())
}

/// Each stream after its length in two bytes, and its lines after a line `S` with its number.
fn write_streams(streams: &[Vec<u8>]) -> Result<(), String> {
    let mut input = Vec::new();
    let mut lines = String::new();
    for (number, stream) in streams.iter().enumerate() {
        let length = u16::try_from(stream.len()).map_err(|error| error.to_string())?;
        input.extend(length.to_le_bytes());
        input.extend(stream);
        lines += &format!("S {number}\n");
        lines += &stream_lines(Build::PowerRule, stream);
    }
    if input.len() > MOST_STREAM_BYTES {
        return Err(format!("the streams have {} bytes", input.len()));
    }
    write_pair(STREAMS, &input, &lines)?;
    println!(
        "{STREAMS}: {} streams, {} bytes",
        streams.len(),
        input.len()
    );
    Ok(())
}

fn write_pair(folder: &str, input: &[u8], lines: &str) -> Result<(), String> {
    let write = |name: &str, bytes: &[u8]| {
        std::fs::write(format!("{folder}/{name}"), bytes).map_err(|error| error.to_string())
    };
    write("stdin", input)?;
    write("stdout", lines.as_bytes())
}
