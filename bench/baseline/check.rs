//! Judges a file by the tables, and notices what is allowed but unusual.

use crate::faults::{Fault, FaultAt};
use crate::flat::{flatten, Flat, Payload};
use crate::links::{resolve, Index};
use crate::tables::{Context, Row, Tables, UNCHECKED};
use crate::values::Kind;
use std::io::Write;

/// A file that is accepted.
pub struct Accepted<'a> {
    pub flat: Flat<'a>,
    pub index: Index,
    /// The number of the row of each structure; 0 for one without a row.
    pub rows: Vec<u16>,
    /// The places of standard tags that have no row where one is looked for, in no order.
    unlisted: Vec<u32>,
}

/// Reads and judges a file. Under the strict profile what would be noticed is a fault.
pub fn accept<'a>(tables: &Tables, bytes: &'a [u8], strict: bool) -> Result<Accepted<'a>, FaultAt> {
    let flat = flatten(bytes, &tables.tags)?;
    let index = resolve(&flat)?;
    let rows = vec![0; flat.size()];
    let mut judge = Judge { tables, flat: &flat, index: &index, rows, unlisted: Vec::new() };
    judge.check()?;
    let Judge { rows, unlisted, .. } = judge;
    let mut accepted = Accepted { flat, index, rows, unlisted };
    if strict {
        if let Some(&(line, fault)) = accepted.notices().first() {
            return Err(FaultAt { line, fault });
        }
    }
    Ok(accepted)
}

/// What `check` writes: a line for each notice, and that the file is accepted.
pub fn report(mut accepted: Accepted<'_>) -> Vec<u8> {
    let mut answer = Vec::new();
    for (line, fault) in accepted.notices() {
        let words = if fault == Fault::OneWayLink { "one-way link" } else { "unlisted tag" };
        let _ = writeln!(answer, "line {line}: {words}");
    }
    answer.extend_from_slice(b"accepted\n");
    answer
}

/// What `show` writes: the level, the tag and the kind of each structure.
pub fn show(tables: &Tables, accepted: &Accepted<'_>) -> Vec<u8> {
    let flat = &accepted.flat;
    let mut answer = Vec::with_capacity(flat.size() * 16);
    for (place, &row) in accepted.rows.iter().enumerate() {
        push_number(&mut answer, usize::from(flat.structure(place).level));
        answer.push(b' ');
        answer.extend_from_slice(flat.tag(place));
        answer.push(b' ');
        let word = if row == 0 { "-" } else { tables.rows[usize::from(row)].kind.word() };
        answer.extend_from_slice(word.as_bytes());
        answer.push(b'\n');
    }
    answer
}

/// Writes a number with decimal digits.
pub fn push_number(answer: &mut Vec<u8>, number: usize) {
    if number >= 10 {
        push_number(answer, number / 10);
    }
    answer.push(b'0' + (number % 10) as u8);
}

impl Accepted<'_> {
    /// The notices by line, each with the fault that it is under the strict profile. No line has two.
    fn notices(&mut self) -> Vec<(usize, Fault)> {
        let unlisted = self.unlisted.iter().map(|&place| (place, Fault::UnlistedTag));
        let one_way = self.index.one_way().into_iter().map(|place| (place, Fault::OneWayLink));
        let mut notices: Vec<(u32, Fault)> = unlisted.chain(one_way).collect();
        notices.sort_unstable_by_key(|&(place, _)| place);
        notices.into_iter().map(|(place, fault)| (self.flat.line(place as usize), fault)).collect()
    }
}

/// A file that is being judged. A structure gets its row when the one above it is judged.
struct Judge<'a, 'b> {
    tables: &'a Tables,
    flat: &'a Flat<'b>,
    index: &'a Index,
    rows: Vec<u16>,
    unlisted: Vec<u32>,
}

impl Judge<'_, '_> {
    /// Tells the first fault in the order of the header and the records, and in each from above to below.
    fn check(&mut self) -> Result<(), FaultAt> {
        let file = &self.tables.contexts[usize::from(self.tables.file)];
        self.find_row(file, 0);
        for record in &self.flat.records {
            self.find_row(file, record.place as usize);
        }
        let mut place = 0;
        while place < self.rows.len() {
            let row = self.tables.rows[usize::from(self.rows[place])];
            if self.rows[place] > 0 {
                self.check_payload(place, row.kind)?;
            }
            let after = self.flat.structure(place).after as usize;
            if row.below == UNCHECKED {
                place = after;
                continue;
            }
            self.check_children(place, row)?;
            place += 1;
        }
        Ok(())
    }

    /// Finds the row of a structure in its context, which isn't the unchecked one.
    fn find_row(&mut self, context: &Context, place: usize) -> u16 {
        let row = context.row_of[usize::from(self.flat.structure(place).tag_number)];
        self.rows[place] = row;
        if row == 0 && !self.flat.tag(place).starts_with(b"_") {
            self.unlisted.push(place as u32);
        }
        row
    }

    /// Judges a payload by the kind of its row, and the record that it names.
    #[inline(always)]
    fn check_payload(&self, place: usize, kind: Kind) -> Result<(), FaultAt> {
        let flat = self.flat;
        let fits = match (flat.structure(place).payload, kind) {
            (_, Kind::Free) | (Payload::Text, Kind::Text) => true,
            (Payload::Text, _) => flat.further(place).is_empty() && kind.fits_line(flat.value(place)),
            (_, _) => kind.target().is_some(),
        };
        let line = flat.line(place);
        if !fits {
            let fault = if kind == Kind::Version { Fault::WrongVersion } else { Fault::BadPayload };
            return Err(FaultAt { line, fault });
        }
        if let (Payload::Pointer, Some(tag)) = (flat.structure(place).payload, kind.target()) {
            let record = self.index.targets[flat.pointer_number(place)];
            if self.index.record_tags[record as usize] != tag {
                return Err(FaultAt { line, fault: Fault::WrongTarget });
            }
        }
        Ok(())
    }

    /// Finds the rows of what stands straight below a structure, and tells the first row that comes too often or
    /// too seldom.
    #[inline(always)]
    fn check_children(&mut self, place: usize, row: Row) -> Result<(), FaultAt> {
        let context = &self.tables.contexts[usize::from(row.below)];
        let after = self.flat.structure(place).after as usize;
        let mut seen = 0;
        let mut too_many: Option<(u8, usize)> = None;
        let mut child = place + 1;
        while child < after {
            let row = self.find_row(context, child);
            if row > 0 {
                let row_place = self.tables.rows[usize::from(row)].place;
                let bit = 1 << row_place;
                if seen & context.single & bit != 0 && too_many.is_none_or(|(first, _)| row_place < first) {
                    too_many = Some((row_place, child));
                }
                seen |= bit;
            }
            child = self.flat.structure(child).after as usize;
        }
        let missing = context.required & !seen;
        match too_many {
            Some((row_place, child)) if missing == 0 || u32::from(row_place) < missing.trailing_zeros() => {
                Err(FaultAt { line: self.flat.line(child), fault: Fault::TooMany })
            }
            _ if missing != 0 => Err(FaultAt { line: self.flat.line(place), fault: Fault::Missing }),
            _ => Ok(()),
        }
    }
}
