//! Finds records by the names of their identifiers.
//!
//! How it is fast: a name of at most eight characters, as nearly all are, is itself a number, its key; hashing is a
//! multiplication. The hash has a random seed, so that no file can be made to be slow.

use crate::tags::key_of;
use std::collections::hash_map::{Entry, RandomState};
use std::collections::HashMap;
use std::hash::{BuildHasher, Hash, Hasher};

/// The numbers of records by name.
pub struct Names<'a> {
    short: HashMap<u64, u32, Seed>,
    long: HashMap<Long<'a>, u32, Seed>,
}

impl<'a> Names<'a> {
    pub fn with_capacity(names: usize) -> Names<'a> {
        let seed = Seed(RandomState::new().hash_one(0));
        Names { short: HashMap::with_capacity_and_hasher(names, seed), long: HashMap::with_hasher(seed) }
    }

    /// Adds a name by its key; false if there is one like it.
    pub fn add_short(&mut self, key: u64, number: u32) -> bool {
        add_to(self.short.entry(key), number)
    }

    /// The same for a name that has no key.
    pub fn add_long(&mut self, name: &'a [u8], number: u32) -> bool {
        add_to(self.long.entry(Long(name)), number)
    }

    #[inline(always)]
    pub fn find_short(&self, key: u64) -> Option<u32> {
        self.short.get(&key).copied()
    }

    pub fn find_long(&self, name: &[u8]) -> Option<u32> {
        self.long.get(&Long(name)).copied()
    }
}

fn add_to<K>(entry: Entry<'_, K, u32>, number: u32) -> bool {
    match entry {
        Entry::Vacant(vacant) => {
            vacant.insert(number);
            true
        }
        Entry::Occupied(_) => false,
    }
}

/// A name of more than eight characters.
#[derive(PartialEq, Eq)]
struct Long<'a>(&'a [u8]);

impl Hash for Long<'_> {
    fn hash<H: Hasher>(&self, state: &mut H) {
        state.write(self.0);
    }
}

/// The seed of the hash.
#[derive(Clone, Copy)]
struct Seed(u64);

impl BuildHasher for Seed {
    type Hasher = Folded;

    fn build_hasher(&self) -> Folded {
        Folded(self.0)
    }
}

/// A hash that folds the halves of a long product together.
struct Folded(u64);

impl Hasher for Folded {
    #[inline(always)]
    fn write_u64(&mut self, word: u64) {
        let product = u128::from(self.0 ^ word) * 0x9E37_79B9_7F4A_7C15;
        self.0 = (product >> 64) as u64 ^ product as u64;
    }

    fn write(&mut self, bytes: &[u8]) {
        for word in bytes.chunks(8) {
            self.write_u64(key_of(word));
        }
    }

    fn finish(&self) -> u64 {
        self.0
    }
}
