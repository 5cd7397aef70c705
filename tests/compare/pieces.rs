//! Streams that arrive in pieces, each piece in a reading of its own.

use oracle::record::{Form, Written};

use crate::generator::Generator;
use crate::random::Random;

const STREAMS: usize = 20;
const STREAM_RECORDS: usize = 200;
const LONGEST_PIECE: u16 = 100;
const BYTEWISE_RECORDS: usize = 60;

/// The pieces of each stream, of records with these operations. Most end inside a record.
pub fn streams_in_pieces(
    generator: &mut Generator,
    seed: u64,
    operations: &[u8],
) -> Vec<Vec<Vec<u8>>> {
    if operations.is_empty() {
        return Vec::new();
    }
    let mut random = Random::new(seed);
    let mut streams = vec![
        cut_at_every_byte(generator, operations, true),
        cut_at_every_byte(generator, operations, false),
    ];
    let bytes = stream(generator, operations, BYTEWISE_RECORDS);
    streams.push(bytes.iter().map(|&byte| vec![byte]).collect());
    for _ in 0..STREAMS {
        let mut bytes = stream(generator, operations, STREAM_RECORDS);
        let lost = random.below(Form::Long.length() as u64) as usize;
        bytes.truncate(bytes.len() - lost);
        streams.push(random_pieces(&mut random, &bytes));
    }
    streams
}

fn stream(generator: &mut Generator, operations: &[u8], records: usize) -> Vec<u8> {
    let records = generator.cheap_records(records, operations);
    records.iter().flat_map(Written::to_bytes).collect()
}

fn random_pieces(random: &mut Random, mut bytes: &[u8]) -> Vec<Vec<u8>> {
    let mut pieces = Vec::new();
    while !bytes.is_empty() {
        let length = usize::from(random.between(1, LONGEST_PIECE));
        let (piece, rest) = bytes.split_at(length.min(bytes.len()));
        pieces.push(piece.to_vec());
        bytes = rest;
    }
    pieces
}

/// A record for each byte of either form, cut there. The next record comes in a piece of its own, or
/// its beginning in the piece that has the end of the one before.
fn cut_at_every_byte(generator: &mut Generator, operations: &[u8], apart: bool) -> Vec<Vec<u8>> {
    let mut pieces: Vec<Vec<u8>> = Vec::new();
    for at in 1..Form::Long.length() {
        for form in Form::BOTH.into_iter().filter(|form| at < form.length()) {
            let mut beginning = generator.cheap_record(form, operations).to_bytes();
            let end = beginning.split_off(at);
            match pieces.last_mut() {
                Some(piece) if !apart => piece.extend(beginning),
                _ => pieces.push(beginning),
            }
            pieces.push(end);
        }
    }
    pieces
}
