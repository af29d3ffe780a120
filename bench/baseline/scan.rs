//! Finds the lines of a text, and the bytes that may not stand in one.
//!
//! How it is fast: UTF-8 is validated by blocks that stay in the cache; bytes that may end a line or be banned
//! are found 64 at a time, in a form that the compiler turns into vector instructions.

use crate::faults::{Fault, FaultAt};
use crate::line::fault_of;
use std::str;

pub const BYTE_ORDER_MARK: &[u8] = b"\xEF\xBB\xBF";

/// Takes the lines of a text in turn. Places are bytes of the text.
pub trait TakeLines {
    /// Takes the line from `start` to `end`, whose characters are all allowed; the next one starts at `next`.
    fn take(&mut self, start: usize, end: usize, next: usize) -> Result<(), Fault>;

    /// Is called after each block; the lines before `start` are taken.
    fn end_block(&mut self, _start: usize) {}
}

/// Hands on each line up to the first faulty one.
pub fn scan(text: &[u8], taker: &mut impl TakeLines) -> Result<(), FaultAt> {
    let mut scanner = Scanner { text, valid: 0, broken: usize::MAX, line: 1, start: 0, taker };
    let mut at = 0;
    for block in text.chunks(BLOCK) {
        scanner.validate(at + block.len());
        for chunk in block.chunks(CHUNK) {
            scanner.read_chunk(at, chunk)?;
            at += chunk.len();
        }
        scanner.taker.end_block(scanner.start);
    }
    if scanner.start < text.len() {
        scanner.end_line(text.len(), text.len())?;
    }
    Ok(())
}

/// Bytes that are validated and read together: few enough for the second-level cache.
const BLOCK: usize = 1 << 16;

/// Bytes whose special ones are found at once.
const CHUNK: usize = 64;

/// A text that is read from its start to its end. Places are bytes of the text.
struct Scanner<'a, 'b, T> {
    text: &'a [u8],
    /// Up to here the text is UTF-8.
    valid: usize,
    /// Where the text is not UTF-8, once that is known.
    broken: usize,
    /// The number of the line that is being read, from 1.
    line: usize,
    /// Where that line starts.
    start: usize,
    taker: &'b mut T,
}

impl<T: TakeLines> Scanner<'_, '_, T> {
    /// Validates the text up to this end. A character that the end cuts in two is left for the next time.
    fn validate(&mut self, end: usize) {
        if self.broken != usize::MAX {
            return;
        }
        match str::from_utf8(&self.text[self.valid..end]) {
            Ok(_) => self.valid = end,
            Err(error) => {
                self.valid += error.valid_up_to();
                if error.error_len().is_some() || end == self.text.len() {
                    self.broken = self.valid;
                }
            }
        }
    }

    /// Reads up to 64 bytes, which begin at this place.
    #[inline(always)]
    fn read_chunk(&mut self, at: usize, chunk: &[u8]) -> Result<(), FaultAt> {
        let mut specials = match chunk.try_into() {
            Ok(whole) => special_bytes(whole),
            Err(_) => {
                let mut padded = [b' '; CHUNK];
                padded[..chunk.len()].copy_from_slice(chunk);
                special_bytes(&padded)
            }
        };
        while specials != 0 {
            self.read_special(at + specials.trailing_zeros() as usize)?;
            specials &= specials - 1;
        }
        Ok(())
    }

    /// Reads the special byte at this place.
    #[inline(always)]
    fn read_special(&mut self, at: usize) -> Result<(), FaultAt> {
        match self.text[at..] {
            // The second byte of CR LF; the line ended at the first.
            [b'\n', ..] if at < self.start => Ok(()),
            [b'\n', ..] => self.end_line(at, at + 1),
            [b'\r', b'\n', ..] => self.end_line(at, at + 2),
            [b'\r', ..] => self.end_line(at, at + 1),
            [b'\t', ..] => Ok(()),
            [0xEF, 0xBF, 0xBE | 0xBF, ..] => Err(self.faulty_line()),
            [0xEF, ..] => Ok(()),
            _ => Err(self.faulty_line()),
        }
    }

    /// Hands on the line that ends before `end`; the next one starts at `next`.
    #[inline(always)]
    fn end_line(&mut self, end: usize, next: usize) -> Result<(), FaultAt> {
        if self.broken < end {
            return Err(self.faulty_line());
        }
        match self.taker.take(self.start, end, next) {
            Ok(()) => {
                self.line += 1;
                self.start = next;
                Ok(())
            }
            Err(fault) => Err(FaultAt { line: self.line, fault }),
        }
    }

    /// Tells the fault of the line that is being read.
    #[cold]
    fn faulty_line(&self) -> FaultAt {
        let rest = &self.text[self.start..];
        let length = rest.iter().position(|byte| matches!(byte, b'\n' | b'\r')).unwrap_or(rest.len());
        FaultAt { line: self.line, fault: fault_of(&rest[..length]) }
    }
}

/// The bytes that may end a line or belong to a banned character, as a bit each, the first byte's lowest.
fn special_bytes(chunk: &[u8; CHUNK]) -> u64 {
    let mut bits = [0; CHUNK];
    for (place, (bit, &byte)) in bits.iter_mut().zip(chunk).enumerate() {
        // 0xEF is the first byte of U+FFFE and U+FFFF.
        let special = byte < 0x20 || byte == 0x7F || byte == 0xEF;
        *bit = u8::from(special) << (place % 8);
    }
    // Eight bytes without a common bit are added up in the product's highest byte.
    let mut all = [0; 8];
    for (byte, eight) in all.iter_mut().zip(bits.chunks_exact(8)) {
        let sum = eight.try_into().map_or(0, u64::from_le_bytes).wrapping_mul(0x0101_0101_0101_0101);
        *byte = (sum >> 56) as u8;
    }
    u64::from_le_bytes(all)
}
