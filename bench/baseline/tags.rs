//! Numbers for the tags that the tables or the tree know, so that a tag is looked up once.

use crate::flat::Flat;

/// The number of every other tag.
pub const OTHER: u8 = 0;
pub const CONT: u8 = 1;
pub const HEAD: u8 = 2;
pub const TRLR: u8 = 3;
pub const INDI: u8 = 4;
pub const FAM: u8 = 5;
pub const SUBM: u8 = 6;
pub const SNOTE: u8 = 7;
pub const SOUR: u8 = 8;
pub const OBJE: u8 = 9;
pub const HUSB: u8 = 10;
pub const WIFE: u8 = 11;
pub const CHIL: u8 = 12;
pub const FAMS: u8 = 13;
pub const FAMC: u8 = 14;

/// The tags with the numbers above, in their order.
const NAMED: [&str; 14] =
    ["CONT", "HEAD", "TRLR", "INDI", "FAM", "SUBM", "SNOTE", "SOUR", "OBJE", "HUSB", "WIFE", "CHIL", "FAMS", "FAMC"];

/// Room for some four times as many tags as there are.
const SLOTS: usize = 512;

/// A hash table of tags by their keys. A slot without a key is empty.
pub struct Tags {
    keys: [u64; SLOTS],
    numbers: [u8; SLOTS],
    count: u8,
    /// What each tag with a number is put in order by.
    orders: [u64; 256],
}

impl Tags {
    pub fn new() -> Tags {
        let mut tags = Tags { keys: [0; SLOTS], numbers: [OTHER; SLOTS], count: 0, orders: [0; 256] };
        for name in NAMED {
            tags.add(name);
        }
        tags
    }

    /// The number of a tag of at most eight characters, which is given one if it has none.
    pub fn add(&mut self, name: &str) -> u8 {
        let key = key_of(name.as_bytes());
        let slot = self.slot_of(key);
        if self.keys[slot] == 0 {
            self.count += 1;
            self.keys[slot] = key;
            self.numbers[slot] = self.count;
            // GEDC comes before all other tags.
            self.orders[usize::from(self.count)] = if name == "GEDC" { 0 } else { key.swap_bytes() };
        }
        self.numbers[slot]
    }

    /// The first eight characters of a tag, so that greater numbers come later in the canonical form.
    #[inline(always)]
    pub fn order_of(&self, flat: &Flat<'_>, place: usize) -> u64 {
        match flat.structure(place).tag_number {
            OTHER => {
                let tag = flat.tag(place);
                key_of(&tag[..tag.len().min(8)]).swap_bytes()
            }
            number => self.orders[usize::from(number)],
        }
    }

    /// The number of the tag with this key.
    #[inline(always)]
    pub fn number_of(&self, key: u64) -> u8 {
        self.numbers[self.slot_of(key)]
    }

    /// The slot with this key, or the empty one where it would stand.
    #[inline(always)]
    fn slot_of(&self, key: u64) -> usize {
        let mut slot = (key.wrapping_mul(0x9E37_79B9_7F4A_7C15) >> 55) as usize % SLOTS;
        while self.keys[slot] != key && self.keys[slot] != 0 {
            slot = (slot + 1) % SLOTS;
        }
        slot
    }
}

/// The bytes of a word of at most eight characters as a number, the first byte lowest.
#[inline(always)]
pub fn key_of(word: &[u8]) -> u64 {
    match (word, word.first_chunk(), word.last_chunk()) {
        // The two halves may share bytes.
        (_, Some(&first), Some(&last)) => {
            u64::from(u32::from_le_bytes(first)) | u64::from(u32::from_le_bytes(last)) << (8 * (word.len() - 4))
        }
        (&[one], ..) => u64::from(one),
        (&[one, two], ..) => u64::from(u16::from_le_bytes([one, two])),
        (&[one, two, three], ..) => u64::from(u32::from_le_bytes([one, two, three, 0])),
        _ => 0,
    }
}
