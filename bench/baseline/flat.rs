//! The flat table of a file: its structures in the file's order, whose texts are slices of the file.
//!
//! How it is fast: one pass judges the lines and the tree and fills the table, eight bytes are looked at once to
//! find a tag's end and number, and places are kept in 32 bits, of which a file within the limit needs no more.

use crate::faults::{Fault, FaultAt};
use crate::line::{after_xref, fault_of, is_at_value, starts_as_tag, tagchars};
use crate::scan::{scan, TakeLines, BYTE_ORDER_MARK};
use crate::tags::{key_of, Tags, CONT, HEAD, OTHER, TRLR};

/// What stands after a structure's tag.
#[derive(Clone, Copy, PartialEq, Eq)]
pub enum Payload {
    Text,
    Pointer,
    Void,
}

/// A structure. Places in the text are bytes, counted from 0.
#[derive(Clone, Copy)]
pub struct Structure {
    /// The first place in the table past what stands below the structure.
    pub after: u32,
    /// Where the tag starts in the text, and its length.
    tag: u32,
    tag_length: u32,
    /// The length of the identifier's name; 0 if there is none.
    xref_length: u32,
    /// Where the payload's first line starts: past the blank, and past an `@` that only doubles the next one. The
    /// slice of a pointer is its name; for it, this is the pointer's place among all pointers.
    value: u32,
    value_length: u32,
    /// Where its further lines start among those of all structures; they end where the next structure's start.
    further: u32,
    pub level: u8,
    pub payload: Payload,
    pub tag_number: u8,
}

/// A line of a payload past the first: a slice of the text, past the blank and an `@` that only doubles.
#[derive(Clone, Copy)]
pub struct FurtherLine {
    pub start: u32,
    pub length: u32,
}

/// A record, or a pointer that isn't void, with what finds out what pointers name.
#[derive(Clone, Copy)]
pub struct Named {
    /// The key of its name; 0 if that is long, and for a record without one.
    pub key: u64,
    pub place: u32,
    pub level: u8,
    pub tag_number: u8,
}

/// The table of a file whose lines and tree have no fault.
pub struct Flat<'a> {
    /// The file without its byte order mark.
    pub text: &'a [u8],
    /// The structures in the file's order, and the trailer as the last.
    structures: Vec<Structure>,
    further: Vec<FurtherLine>,
    pub records: Vec<Named>,
    pub pointers: Vec<Named>,
}

impl<'a> Flat<'a> {
    /// How many structures there are, without the trailer.
    pub fn size(&self) -> usize {
        self.structures.len() - 1
    }

    pub fn structure(&self, place: usize) -> &Structure {
        &self.structures[place]
    }

    /// The line of a structure, counted from 1: each line before it is a structure's or a further one.
    pub fn line(&self, place: usize) -> usize {
        place + self.structures[place].further as usize + 1
    }

    pub fn tag(&self, place: usize) -> &'a [u8] {
        let Structure { tag, tag_length, .. } = self.structures[place];
        slice(self.text, tag, tag_length)
    }

    /// The name of a record's identifier; empty if it has none.
    pub fn xref(&self, place: usize) -> &'a [u8] {
        let Structure { tag, xref_length, .. } = self.structures[place];
        if xref_length == 0 {
            return &[];
        }
        slice(self.text, tag - "@ ".len() as u32 - xref_length, xref_length)
    }

    /// The first line of a text, or the name of a pointer.
    pub fn value(&self, place: usize) -> &'a [u8] {
        let Structure { tag, tag_length, value, value_length, payload, .. } = self.structures[place];
        match payload {
            Payload::Pointer => slice(self.text, tag + tag_length + " @".len() as u32, value_length),
            _ => slice(self.text, value, value_length),
        }
    }

    /// The place of a pointer among all pointers.
    pub fn pointer_number(&self, place: usize) -> usize {
        self.structures[place].value as usize
    }

    pub fn further(&self, place: usize) -> &[FurtherLine] {
        &self.further[self.structures[place].further as usize..self.structures[place + 1].further as usize]
    }

    pub fn further_count(&self) -> usize {
        self.further.len()
    }

    /// Where the structure's tag starts in the text, and where its line ends, a blank after an empty value left out.
    pub fn written(&self, place: usize) -> (usize, usize) {
        let Structure { tag, tag_length, value, value_length, payload, .. } = self.structures[place];
        let end = match payload {
            Payload::Pointer => tag + tag_length + value_length + " @@".len() as u32,
            _ if value_length == 0 => tag + tag_length,
            _ => value + value_length,
        };
        (tag as usize, end as usize)
    }
}

fn slice(text: &[u8], start: u32, length: u32) -> &[u8] {
    &text[start as usize..][..length as usize]
}

/// Reads the table of a file, or tells its first fault of a line or of the tree.
pub fn flatten<'a>(bytes: &'a [u8], tags: &Tags) -> Result<Flat<'a>, FaultAt> {
    let text = bytes.strip_prefix(BYTE_ORDER_MARK).unwrap_or(bytes);
    let (structures, further, records, pointers) = (Vec::new(), Vec::new(), Vec::new(), Vec::new());
    let mut builder = Builder {
        flat: Flat { text, structures, further, records, pointers },
        tags,
        open: [0; 100],
        opened: 0,
        deepest: 0,
        cont_level: 0,
        after_cont: false,
        ended: false,
    };
    scan(text, &mut builder)?;
    if builder.ended {
        return Ok(builder.flat);
    }
    let lines = builder.flat.structures.len() + builder.flat.further.len();
    match lines {
        0 => Err(FaultAt { line: 1, fault: Fault::NoHeader }),
        _ => Err(FaultAt { line: lines + 1, fault: Fault::NoTrailer }),
    }
}

/// A table that is being filled.
struct Builder<'a, 'b> {
    flat: Flat<'a>,
    tags: &'b Tags,
    /// The places of the structures that may still get something below them, by level.
    open: [u32; 100],
    /// How many of them there are.
    opened: u8,
    /// The greatest level that the next line may have.
    deepest: u8,
    /// The level of a CONT that may come next; 0 if none may.
    cont_level: u8,
    /// Whether the line before is a CONT.
    after_cont: bool,
    /// Whether the trailer has come.
    ended: bool,
}

impl TakeLines for Builder<'_, '_> {
    #[inline(always)]
    fn take(&mut self, start: usize, end: usize, _next: usize) -> Result<(), Fault> {
        let Some(structure) = self.read(start, end) else {
            return Err(fault_of(&self.flat.text[start..end]));
        };
        self.judge(&structure)?;
        self.push(structure);
        Ok(())
    }
}

impl Builder<'_, '_> {
    /// The parts of a line; none if it is faulty. Its characters are all allowed.
    #[inline(always)]
    fn read(&self, start: usize, end: usize) -> Option<Structure> {
        let text = self.flat.text;
        let (level, mut tag) = match text[start..end] {
            [digit @ b'0'..=b'9', b' ', ..] => (digit - b'0', start + 2),
            [ten @ b'1'..=b'9', digit @ b'0'..=b'9', b' ', ..] => ((ten - b'0') * 10 + digit - b'0', start + 3),
            _ => return None,
        };
        let mut xref_length = 0;
        if let rest @ [b'@', ..] = &text[tag..end] {
            let taken = rest.len() - after_xref(rest)?.len();
            xref_length = taken - "@@ ".len();
            tag += taken;
        }
        let (tag_length, tag_number) = self.read_tag(tag, end)?;
        let (payload, value, value_length) = read_value(text, tag + tag_length, end)?;
        Some(Structure {
            after: 0,
            tag: tag as u32,
            tag_length: tag_length as u32,
            xref_length: xref_length as u32,
            value: value as u32,
            value_length: value_length as u32,
            further: self.flat.further.len() as u32,
            level,
            payload,
            tag_number,
        })
    }

    /// The length and the number of the tag that starts here; none if there is no tag.
    #[inline(always)]
    fn read_tag(&self, start: usize, end: usize) -> Option<(usize, u8)> {
        if let Some(eight) = self.flat.text.get(start..start + 8) {
            let word = eight.try_into().map_or(0, u64::from_le_bytes);
            // The high bits of the bytes below 0x21: in the lowest of them at least, none is set falsely.
            let ends = word.wrapping_sub(0x2121_2121_2121_2121) & !word & 0x8080_8080_8080_8080;
            let length = ends.trailing_zeros() as usize / 8;
            if length > 0 && length < 8 {
                let number = self.tags.number_of(word & ((1 << (length * 8)) - 1));
                if number != OTHER {
                    return Some((length, number));
                }
            }
        }
        self.read_rare_tag(start, end)
    }

    /// The same for a tag that has no number, is long, or stands near the text's end.
    #[inline(never)]
    fn read_rare_tag(&self, start: usize, end: usize) -> Option<(usize, u8)> {
        let rest = &self.flat.text[start..end];
        let tag = &rest[..tagchars(rest)];
        if !starts_as_tag(tag) {
            return None;
        }
        let number = if tag.len() <= 8 { self.tags.number_of(key_of(tag)) } else { OTHER };
        Some((tag.len(), number))
    }

    /// Tells a fault of the tree at this line, the lowest that applies.
    #[inline(always)]
    fn judge(&self, line: &Structure) -> Result<(), Fault> {
        let (level, tag) = (line.level, line.tag_number);
        if level > self.deepest {
            return Err(Fault::LevelJump);
        }
        if line.xref_length > 0 && (level > 0 || tag == HEAD || tag == TRLR) {
            return Err(Fault::XrefNotAllowed);
        }
        let is_misplaced = if tag == CONT {
            level == 0 || level != self.cont_level || line.payload != Payload::Text
        } else {
            self.after_cont && level == self.deepest
        };
        if is_misplaced {
            return Err(Fault::MisplacedCont);
        }
        if level == 0 || self.ended {
            return self.judge_top(line);
        }
        Ok(())
    }

    /// The same for what is at level 0 or after the trailer.
    fn judge_top(&self, line: &Structure) -> Result<(), Fault> {
        let is_first = self.flat.structures.is_empty();
        match (line.level, line.tag_number) {
            (0, HEAD) if is_first => Ok(()),
            _ if is_first => Err(Fault::NoHeader),
            (0, HEAD) => Err(Fault::SecondHeader),
            (0, TRLR) if line.payload != Payload::Text || line.value_length > 0 => Err(Fault::TrailerNotEmpty),
            (0, _) if self.ended => Err(Fault::AfterTrailer),
            (0, _) => Ok(()),
            _ => Err(Fault::TrailerNotEmpty),
        }
    }

    /// Adds a line without a fault to the table.
    #[inline(always)]
    fn push(&mut self, mut line: Structure) {
        if line.tag_number == CONT {
            self.flat.further.push(FurtherLine { start: line.value, length: line.value_length });
            self.deepest = line.level + 1;
            self.cont_level = line.level;
            self.after_cont = true;
            return;
        }
        let (place, level) = (self.flat.structures.len() as u32, line.level);
        for &open in &self.open[usize::from(level)..usize::from(self.opened.max(level))] {
            self.flat.structures[open as usize].after = place;
        }
        self.open[usize::from(level)] = place;
        self.opened = level + 1;
        self.deepest = level + 1;
        self.after_cont = false;
        self.cont_level = if line.payload == Payload::Text { level + 1 } else { 0 };
        if line.payload == Payload::Pointer {
            let pointer = self.named(&line, line.value, line.value_length);
            line.value = self.flat.pointers.len() as u32;
            self.flat.pointers.push(pointer);
        }
        if level == 0 && line.tag_number == TRLR {
            self.ended = true;
        } else if level == 0 && place > 0 {
            let record = self.named(&line, line.tag - "@ ".len() as u32 - line.xref_length, line.xref_length);
            self.flat.records.push(record);
        }
        self.flat.structures.push(line);
    }

    /// The structure that comes next, with the name that starts here.
    fn named(&self, line: &Structure, start: u32, length: u32) -> Named {
        let key = if length <= 8 { key_of(slice(self.flat.text, start, length)) } else { 0 };
        let place = self.flat.structures.len() as u32;
        Named { key, place, level: line.level, tag_number: line.tag_number }
    }
}

/// What a line's value is, where its slice starts and how long it is; none if it is faulty. It starts at the end
/// of the tag.
#[inline(always)]
fn read_value(text: &[u8], start: usize, end: usize) -> Option<(Payload, usize, usize)> {
    match text[start..end] {
        [] | [b' '] => Some((Payload::Text, start, 0)),
        [b' ', b'@', ..] => read_at_value(&text[start + 1..end], start + 1),
        [b' ', ..] => Some((Payload::Text, start + 1, end - start - 1)),
        _ => None,
    }
}

/// The same for a value that begins with `@`.
fn read_at_value(value: &[u8], start: usize) -> Option<(Payload, usize, usize)> {
    match value {
        _ if !is_at_value(value) => None,
        [_, b'@', ..] => Some((Payload::Text, start + 1, value.len() - 1)),
        b"@VOID@" => Some((Payload::Void, start, value.len())),
        _ => Some((Payload::Pointer, start + 1, value.len() - "@@".len())),
    }
}
