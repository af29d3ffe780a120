//! The lines of a file in their one spelling: a byte order mark first, LF after each line, no blank after a tag
//! without a value.
//!
//! How it is fast: of a line only the level, the identifier, the tag and the value's start are looked at; lines
//! that are spelled right already are copied together with their neighbours.

use crate::faults::{Fault, FaultAt};
use crate::line::{after_level, after_xref, fault_of, is_at_value, starts_as_tag, tagchars};
use crate::scan::{scan, TakeLines, BYTE_ORDER_MARK};

/// The lines of a file in their one spelling, if each is one of FamilySearch GEDCOM 7.0.
pub fn respell(bytes: &[u8]) -> Result<Vec<u8>, FaultAt> {
    let text = bytes.strip_prefix(BYTE_ORDER_MARK).unwrap_or(bytes);
    // Only a last line without its end makes the answer longer than the text.
    let mut answer = Vec::with_capacity(BYTE_ORDER_MARK.len() + text.len() + 1);
    answer.extend_from_slice(BYTE_ORDER_MARK);
    let mut speller = Speller { text, copied: 0, answer };
    scan(text, &mut speller)?;
    speller.copy_to(text.len());
    Ok(speller.answer)
}

/// A text whose lines are written as they are read.
struct Speller<'a> {
    text: &'a [u8],
    /// Up to here the text is in the answer.
    copied: usize,
    answer: Vec<u8>,
}

impl Speller<'_> {
    /// Copies what isn't yet in the answer, up to this place.
    fn copy_to(&mut self, end: usize) {
        self.answer.extend_from_slice(&self.text[self.copied..end]);
        self.copied = end;
    }
}

impl TakeLines for Speller<'_> {
    #[inline(always)]
    fn take(&mut self, start: usize, end: usize, next: usize) -> Result<(), Fault> {
        let line = &self.text[start..end];
        let Some(length) = spelled_length(line) else {
            return Err(fault_of(line));
        };
        let is_respelled = start + length < end || self.text.get(end) != Some(&b'\n');
        if is_respelled {
            self.copy_to(start + length);
            self.answer.push(b'\n');
            self.copied = next;
        }
        Ok(())
    }

    fn end_block(&mut self, start: usize) {
        self.copy_to(start);
    }
}

/// The length of an allowed line's spelling, which leaves out one blank where a value would stand; none for a
/// faulty line. Its characters are all allowed.
#[inline(always)]
fn spelled_length(line: &[u8]) -> Option<usize> {
    let mut rest = after_level(line)?;
    if rest.first() == Some(&b'@') {
        rest = after_xref(rest)?;
    }
    let (tag, rest) = rest.split_at(tagchars(rest));
    if !starts_as_tag(tag) {
        return None;
    }
    match rest {
        [] => Some(line.len()),
        [b' '] => Some(line.len() - 1),
        [b' ', value @ ..] if value[0] != b'@' || is_at_value(value) => Some(line.len()),
        _ => None,
    }
}
