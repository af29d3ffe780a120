//! Cross-references: what each pointer names, and links between persons and families in one direction only.

use crate::faults::{Fault, FaultAt};
use crate::flat::{Flat, Named};
use crate::names::Names;
use crate::tags::{CHIL, FAM, FAMC, FAMS, HUSB, INDI, WIFE};

/// What is known of the pointers of a file. Records are told by number, counted from 0.
pub struct Index {
    /// The record of each pointer.
    pub targets: Vec<u32>,
    /// The number of each record's tag.
    pub record_tags: Vec<u8>,
    links: Links,
}

/// The links of a file by kind.
#[derive(Default)]
struct Links {
    /// FAMS, and the HUSB and WIFE that answer it.
    spouse: [Vec<Link>; 2],
    /// FAMC, and the CHIL that answers it.
    child: [Vec<Link>; 2],
}

/// A pointer that links a person and a family.
#[derive(Clone, Copy)]
struct Link {
    /// The numbers of the person and of the family as one number.
    pair: u64,
    /// The pointer's place.
    place: u32,
}

/// Finds the record of each pointer, or tells the first identifier that is given twice, or else the first pointer
/// that names no record.
pub fn resolve(flat: &Flat<'_>) -> Result<Index, FaultAt> {
    let names = name_records(flat)?;
    let record_tags = flat.records.iter().map(|record| record.tag_number).collect();
    let mut index = Index { targets: Vec::with_capacity(flat.pointers.len()), record_tags, links: Links::default() };
    // How many records start before this pointer, or at it; one less is the number of the record around it.
    let mut started = 0;
    for pointer in &flat.pointers {
        let target = match pointer.key {
            0 => names.find_long(flat.value(pointer.place as usize)),
            key => names.find_short(key),
        };
        let Some(target) = target else {
            return Err(FaultAt { line: flat.line(pointer.place as usize), fault: Fault::DanglingPointer });
        };
        index.targets.push(target);
        while flat.records.get(started).is_some_and(|record| record.place <= pointer.place) {
            started += 1;
        }
        if started > 0 && pointer.level == 1 {
            index.add_link(pointer, started - 1, target as usize);
        }
    }
    Ok(index)
}

/// The numbers of the records by name.
fn name_records<'a>(flat: &Flat<'a>) -> Result<Names<'a>, FaultAt> {
    let mut names = Names::with_capacity(flat.records.len());
    for (number, record) in flat.records.iter().enumerate() {
        let is_new = match record.key {
            0 => match flat.xref(record.place as usize) {
                [] => true,
                name => names.add_long(name, number as u32),
            },
            key => names.add_short(key, number as u32),
        };
        if !is_new {
            return Err(FaultAt { line: flat.line(record.place as usize), fault: Fault::DuplicateXref });
        }
    }
    Ok(names)
}

impl Index {
    /// Keeps the pointer if it is a link: it stands straight below this record and names the target.
    fn add_link(&mut self, pointer: &Named, record: usize, target: usize) {
        let (list, person, family) = match pointer.tag_number {
            FAMS => (&mut self.links.spouse[0], record, target),
            HUSB | WIFE => (&mut self.links.spouse[1], target, record),
            FAMC => (&mut self.links.child[0], record, target),
            CHIL => (&mut self.links.child[1], target, record),
            _ => return,
        };
        if self.record_tags[person] == INDI && self.record_tags[family] == FAM {
            list.push(Link { pair: (person as u64) << 32 | family as u64, place: pointer.place });
        }
    }

    /// The places of the links that aren't answered, in no order.
    pub fn one_way(&mut self) -> Vec<u32> {
        let mut places = Vec::new();
        for [these, those] in [&mut self.links.spouse, &mut self.links.child] {
            these.sort_unstable_by_key(|link| link.pair);
            those.sort_unstable_by_key(|link| link.pair);
            unanswered(these, those, &mut places);
            unanswered(those, these, &mut places);
        }
        places
    }
}

/// Adds the places of these links that have no like among those. Both are in the order of their pairs.
fn unanswered(these: &[Link], those: &[Link], places: &mut Vec<u32>) {
    let mut answers = those.iter().peekable();
    for link in these {
        while answers.next_if(|answer| answer.pair < link.pair).is_some() {}
        if answers.peek().is_none_or(|answer| answer.pair != link.pair) {
            places.push(link.place);
        }
    }
}
