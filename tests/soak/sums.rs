//! Checksums of lines, whole and by blocks of records.

use crate::BLOCK;

const NAN: &[u8] = b"7ff8000000000000";
const INFINITE: &[u8] = b"0000000000000";

/// FNV-1a of 64 bits, and the number of lines.
#[derive(Clone, Copy, PartialEq, Eq)]
pub struct Sum {
    pub hash: u64,
    pub lines: u64,
}

impl Sum {
    const EMPTY: Sum = Sum {
        hash: 0xcbf2_9ce4_8422_2325,
        lines: 0,
    };

    fn add(&mut self, line: &[u8]) {
        self.hash = line.iter().fold(self.hash, |hash, &byte| {
            (hash ^ u64::from(byte)).wrapping_mul(0x0100_0000_01b3)
        });
        self.lines += 1;
    }
}

pub struct Sums {
    pub whole: Sum,
    pub blocks: Vec<Sum>,
    /// Of lines that name no record of the stream.
    pub strays: Sum,
    normal: Vec<u8>,
}

impl Sums {
    pub fn new(records: u64) -> Sums {
        Sums {
            whole: Sum::EMPTY,
            blocks: vec![Sum::EMPTY; records.div_ceil(BLOCK) as usize],
            strays: Sum::EMPTY,
            normal: Vec::new(),
        }
    }

    /// Adds a line, which the end of the stream may have cut short.
    pub fn add(&mut self, line: &[u8]) {
        self.normal.clear();
        for piece in line.split_inclusive(|&byte| byte == b' ' || byte == b'\n') {
            let word = piece.trim_ascii_end();
            let normal = if is_nan(word) { NAN } else { word };
            self.normal.extend_from_slice(normal);
            self.normal.extend_from_slice(&piece[word.len()..]);
        }
        self.whole.add(&self.normal);
        let block = record_number(line).map(|number| (number / BLOCK) as usize);
        let block = block.and_then(|block| self.blocks.get_mut(block));
        block.unwrap_or(&mut self.strays).add(&self.normal);
    }
}

/// Any NaN will do where one is due, so that all count as one.
fn is_nan(word: &[u8]) -> bool {
    word.len() == NAN.len()
        && (word.starts_with(b"7ff") || word.starts_with(b"fff"))
        && word
            .iter()
            .all(|digit| matches!(digit, b'0'..=b'9' | b'a'..=b'f'))
        && !word.ends_with(INFINITE)
}

fn record_number(line: &[u8]) -> Option<u64> {
    let word = line.split(|&byte| byte == b' ').nth(1)?;
    std::str::from_utf8(word).ok()?.parse().ok()
}
