//! Streams that end inside a record or have a wrong mark.

use oracle::record::{Form, MARK_LENGTH, Written};

use crate::generator::Generator;

/// Sound records before the damage.
const BEFORE: [&[Form]; 5] = [
    &[],
    &[Form::Short],
    &[Form::Long],
    &[Form::Short, Form::Long],
    &[Form::Long, Form::Short],
];

const WRONG_MARKS: [[u8; MARK_LENGTH]; 10] = [
    [0x52, 0x57],
    [0x57, 0x53],
    [0x53, 0x58],
    [0x53, 0x55],
    [0x52, 0x56],
    [0x56, 0x53],
    [0, 0x57],
    [0, 0x56],
    [0x53, 0],
    [0, 0],
];

/// How many bytes the stream has left where a wrong mark stands.
const LEFT: [usize; 6] = [2, 3, 33, 34, 35, 36];

/// One byte alone is no mark, whichever it is.
const LONE_BYTES: [u8; 6] = [0, 0x52, 0x53, 0x56, 0x57, 0xff];

/// Every cut of each form and every kind of wrong mark, as the first record and after some sound ones
/// of the given operations, with the empty stream among them.
pub fn damaged_streams(generator: &mut Generator, operations: &[u8]) -> Vec<Vec<u8>> {
    let mut streams = Vec::new();
    for before in BEFORE {
        for damage in damages(generator, operations) {
            let sound = sound_records(generator, operations, before);
            streams.push([sound, damage].concat());
        }
    }
    streams
}

/// What a stream may end with.
fn damages(generator: &mut Generator, operations: &[u8]) -> Vec<Vec<u8>> {
    let mut damages = LONE_BYTES.map(|byte| vec![byte]).to_vec();
    for form in Form::BOTH {
        for length in 0..form.length() {
            damages.push(cut_record(generator, form, length));
        }
        damages.extend(out_of_step(generator, operations, form));
    }
    for mark in WRONG_MARKS {
        for length in LEFT {
            damages.push(marked(generator, mark, length));
        }
        let behind = sound_records(generator, operations, &Form::BOTH);
        damages.push([marked(generator, mark, Form::Long.length()), behind].concat());
    }
    damages
}

/// A byte or two are missing before a sound record, so that its mark is taken for them, or stand there
/// too many.
fn out_of_step(generator: &mut Generator, operations: &[u8], form: Form) -> Vec<Vec<u8>> {
    let mut streams = Vec::new();
    for behind in Form::BOTH {
        for bytes in 1..=2 {
            let sound = sound_records(generator, operations, &[behind]);
            let cut = cut_record(generator, form, form.length() - bytes);
            streams.push([cut, sound.clone()].concat());
            let whole = cut_record(generator, form, form.length());
            streams.push([whole, vec![0; bytes], sound].concat());
        }
    }
    streams
}

/// Streams with an operation that there is none of: it is refused, and the stream goes on, to a
/// sound record, to a cut one and to a wrong mark.
pub fn streams_of_other_operations(generator: &mut Generator, operations: &[u8]) -> Vec<Vec<u8>> {
    let mut streams = Vec::new();
    for form in Form::BOTH {
        for operation in [0, 9, 255] {
            let mut other = cut_record(generator, form, form.length());
            other[MARK_LENGTH] = operation;
            let sound = sound_records(generator, operations, &[form.other()]);
            let cut = cut_record(generator, form, form.length() - 1);
            let wrong = [0x57, 0x53];
            let marked = [marked(generator, wrong, form.length()), sound.clone()].concat();
            for rest in [Vec::new(), sound, cut, marked] {
                streams.push([other.clone(), rest].concat());
            }
        }
    }
    streams
}

/// The first bytes of a record of any operation.
fn cut_record(generator: &mut Generator, form: Form, length: usize) -> Vec<u8> {
    let record = generator.cheap_record(form, &[1, 2, 3, 4, 5, 6, 7, 8]);
    let mut bytes = record.to_bytes();
    bytes.truncate(length);
    bytes
}

/// So many bytes that begin with this mark, like a record.
fn marked(generator: &mut Generator, mark: [u8; MARK_LENGTH], length: usize) -> Vec<u8> {
    let mut bytes = cut_record(generator, Form::Long, length);
    bytes[..MARK_LENGTH].copy_from_slice(&mark);
    bytes.resize(length, 0);
    bytes
}

/// None where there is no operation.
fn sound_records(generator: &mut Generator, operations: &[u8], forms: &[Form]) -> Vec<u8> {
    if operations.is_empty() {
        return Vec::new();
    }
    let sound = forms
        .iter()
        .map(|&form| generator.cheap_record(form, operations));
    sound
        .flat_map(|record: Written| record.to_bytes())
        .collect()
}
