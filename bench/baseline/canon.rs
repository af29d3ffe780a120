//! The canonical form of an accepted file.
//!
//! How it is fast: siblings that are in order already aren't sorted; lines that stay as they are, one after the
//! other, are copied together.

use crate::check::{push_number, Accepted};
use crate::faults::FaultAt;
use crate::flat::{Flat, FurtherLine, Payload};
use crate::scan::BYTE_ORDER_MARK;
use crate::tables::Tables;
use crate::values::Kind;
use std::cmp::Ordering;

/// The canonical form of a file. The second edition also drops leading zeros.
pub fn canonicalise(tables: &Tables, bytes: &[u8], strict: bool, second: bool) -> Result<Vec<u8>, FaultAt> {
    let accepted = crate::check::accept(tables, bytes, strict)?;
    let flat = &accepted.flat;
    let mut order = Vec::with_capacity(flat.records.len());
    for (number, record) in flat.records.iter().enumerate() {
        let key = tables.tags.order_of(flat, record.place as usize);
        order.push(Sibling { key, place: record.place, number: number as u32 });
    }
    sort(flat, &mut order);
    let names = name_records(&accepted, &order);
    let mut answer = Vec::with_capacity(flat.text.len() + flat.text.len() / 16 + 64);
    answer.extend_from_slice(BYTE_ORDER_MARK);
    let mut writer = Writer { accepted: &accepted, tables, second, names, siblings: Vec::new(), copied: 0..0, answer };
    writer.write_tree(0);
    for record in &order {
        writer.write_record(record);
    }
    writer.flush();
    writer.answer.extend_from_slice(b"0 TRLR\n");
    Ok(writer.answer)
}

/// A structure that is put in order among others.
struct Sibling {
    /// What it is put in order by; where that is equal, the whole tag.
    key: u64,
    place: u32,
    /// A record's number, counted from 0.
    number: u32,
}

/// Compares two structures by their tags.
fn compare(flat: &Flat<'_>, one: &Sibling, other: &Sibling) -> Ordering {
    // The last of eight characters is there in both or in neither.
    let are_long = one.key & 0xFF != 0;
    match one.key.cmp(&other.key) {
        Ordering::Equal if are_long => flat.tag(one.place as usize).cmp(flat.tag(other.place as usize)),
        order => order,
    }
}

/// Puts siblings in the order of their tags; those of one tag keep theirs.
fn sort(flat: &Flat<'_>, siblings: &mut [Sibling]) {
    siblings.sort_by(|one, other| compare(flat, one, other));
}

/// The numbers that the records' names get; 0 for a record that no pointer names.
fn name_records(accepted: &Accepted<'_>, order: &[Sibling]) -> Vec<u32> {
    let mut names = vec![0; order.len()];
    for &target in &accepted.index.targets {
        names[target as usize] = 1;
    }
    let mut used = 0;
    for record in order {
        let name = &mut names[record.number as usize];
        used += *name;
        *name *= used;
    }
    names
}

/// Writes structures in their order.
struct Writer<'a, 'b> {
    accepted: &'a Accepted<'b>,
    tables: &'a Tables,
    second: bool,
    /// The number of each record's name.
    names: Vec<u32>,
    /// Structures below those that are being written, which wait for their turn.
    siblings: Vec<Sibling>,
    /// The bytes of the text that come next in the answer.
    copied: std::ops::Range<usize>,
    answer: Vec<u8>,
}

impl Writer<'_, '_> {
    fn write_record(&mut self, record: &Sibling) {
        let flat = &self.accepted.flat;
        let place = record.place as usize;
        let name = self.names[record.number as usize];
        if name == 0 && flat.xref(place).is_empty() {
            return self.write_tree(place);
        }
        self.flush();
        self.answer.extend_from_slice(b"0 ");
        if name > 0 {
            self.push_name(name);
            self.answer.push(b' ');
        }
        self.write_rest(place, flat.written(place).0);
        self.write_below(place);
    }

    /// Writes a structure that has no identifier, and what stands below it.
    fn write_tree(&mut self, place: usize) {
        let flat = &self.accepted.flat;
        let level_length = length_of_level(flat.structure(place).level);
        self.write_rest(place, flat.written(place).0 - level_length - " ".len());
        self.write_below(place);
    }

    /// Writes what stands below a structure.
    fn write_below(&mut self, place: usize) {
        let flat = &self.accepted.flat;
        let after = flat.structure(place).after as usize;
        let first = self.siblings.len();
        let mut child = place + 1;
        let mut is_sorted = true;
        while child < after {
            let sibling = Sibling { key: self.tables.tags.order_of(flat, child), place: child as u32, number: 0 };
            if let Some(before) = self.siblings[first..].last() {
                is_sorted = is_sorted && compare(flat, before, &sibling) != Ordering::Greater;
            }
            self.siblings.push(sibling);
            child = flat.structure(child).after as usize;
        }
        if !is_sorted {
            sort(flat, &mut self.siblings[first..]);
        }
        for at in first..self.siblings.len() {
            self.write_tree(self.siblings[at].place as usize);
        }
        self.siblings.truncate(first);
    }

    /// Writes a structure's line from this place in the text on, and the further lines of its payload.
    fn write_rest(&mut self, place: usize, start: usize) {
        let flat = &self.accepted.flat;
        let (tag, end) = flat.written(place);
        match flat.structure(place).payload {
            Payload::Pointer => {
                let target = self.accepted.index.targets[flat.pointer_number(place)];
                let tag_end = tag + flat.tag(place).len();
                self.copy(start, tag_end + " ".len());
                self.flush();
                self.push_name(self.names[target as usize]);
                self.answer.push(b'\n');
            }
            Payload::Void => self.copy_line(start, end),
            Payload::Text => {
                let row = usize::from(self.accepted.rows[place]);
                if row > 0 && self.is_respelled(self.tables.rows[row].kind, flat.value(place)) {
                    self.write_respelled(place, start);
                } else {
                    self.copy_line(start, end);
                }
                let level = flat.structure(place).level + 1;
                for line in flat.further(place) {
                    self.write_further(line, level);
                }
            }
        }
    }

    fn write_further(&mut self, line: &FurtherLine, level: u8) {
        let (start, end) = (line.start as usize, (line.start + line.length) as usize);
        // What stands before the slice: the level and the tag, then a blank, then an `@` that doubles the next one.
        let head = length_of_level(level) + " CONT".len();
        let is_doubled = self.accepted.flat.text[start..end].starts_with(b"@");
        let gap = usize::from(line.length > 0) + usize::from(is_doubled);
        self.copy_line(start - gap - head, end);
    }

    /// Copies a line of the text, whose spelling ends at `end`.
    fn copy_line(&mut self, start: usize, end: usize) {
        if self.accepted.flat.text.get(end) == Some(&b'\n') {
            self.copy(start, end + 1);
        } else {
            self.copy(start, end);
            self.flush();
            self.answer.push(b'\n');
        }
    }

    /// Copies bytes of the text, together with those before them if these came last.
    fn copy(&mut self, start: usize, end: usize) {
        if start != self.copied.end {
            self.flush();
            self.copied.start = start;
        }
        self.copied.end = end;
    }

    /// Writes what is to be copied.
    fn flush(&mut self) {
        self.answer.extend_from_slice(&self.accepted.flat.text[self.copied.clone()]);
        self.copied.start = self.copied.end;
    }

    fn push_name(&mut self, name: u32) {
        self.answer.extend_from_slice(b"@X");
        push_number(&mut self.answer, name as usize);
        self.answer.push(b'@');
    }

    /// Whether a payload of this kind may have another spelling than its own.
    fn is_respelled(&self, kind: Kind, text: &[u8]) -> bool {
        match kind {
            Kind::DateValue | Kind::DatePeriod => {
                let is_long = text.len() > "GREGORIAN".len();
                self.second || (is_long && text.split(|&byte| byte == b' ').any(|word| word == b"GREGORIAN"))
            }
            Kind::DateExact | Kind::Age | Kind::Integer => self.second,
            _ => false,
        }
    }

    /// Writes a line without the words and zeros that have no meaning in its payload.
    fn write_respelled(&mut self, place: usize, start: usize) {
        let flat = &self.accepted.flat;
        let value = flat.value(place);
        self.copy(start, flat.written(place).0 + flat.tag(place).len());
        self.flush();
        if value.is_empty() {
            return self.answer.push(b'\n');
        }
        for word in value.split(|&byte| byte == b' ').filter(|&word| word != b"GREGORIAN") {
            self.answer.push(b' ');
            self.answer.extend_from_slice(if self.second { trim_zeros(word) } else { word });
        }
        self.answer.push(b'\n');
    }
}

/// The word without each leading 0 that a digit follows.
fn trim_zeros(mut word: &[u8]) -> &[u8] {
    while let [b'0', b'0'..=b'9', ..] = word {
        word = &word[1..];
    }
    word
}

fn length_of_level(level: u8) -> usize {
    1 + usize::from(level >= 10)
}
