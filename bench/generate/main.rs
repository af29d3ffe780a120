//! `generate SHAPE BYTES SEED FILE` writes a made file of just so many bytes: equal arguments, equal bytes.
//!
//! The shape `ordinary` is a family tree as programs write it, valid GEDCOM 7.0 with every link given in both
//! directions. The other shapes are meant to be hard to read or to walk through; `shapes.rs` says what each is.

mod collisions;
mod disorder;
mod people;
mod prose;
mod random;
mod records;
mod shapes;
mod words;
mod world;

use records::Records;
use std::env;
use std::fs::File;
use std::io::{BufWriter, Error, Result, Write};
use world::{Counts, World};

fn main() -> Result<()> {
    let words: Vec<String> = env::args().skip(1).collect();
    let [shape, bytes, seed, file] = words.as_slice() else {
        return Err(Error::other("usage: generate SHAPE BYTES SEED FILE"));
    };
    let bytes: usize = bytes.parse().map_err(Error::other)?;
    let seed: u64 = seed.parse().map_err(Error::other)?;
    let mut out = BufWriter::with_capacity(1 << 20, File::create(file)?);
    if shape == "ordinary" {
        ordinary(bytes, seed, &mut out)?;
    } else {
        shapes::write(shape, bytes, seed, &mut out)?;
    }
    out.flush()
}

/// Writes an ordinary file: the header, then the records by kind, then a last note that fills the wanted size.
pub fn ordinary(bytes: usize, seed: u64, out: &mut impl Write) -> Result<()> {
    let (world, used) = plan(bytes, seed)?;
    let mut records = Records { seed, world: &world, out };
    records.header()?;
    (0..world.persons.len()).try_for_each(|index| records.person(index))?;
    (0..world.families.len()).try_for_each(|index| records.family(index))?;
    (0..world.clans).try_for_each(|clan| records.sources(clan))?;
    (0..world.clans).try_for_each(|clan| records.repository(clan))?;
    (0..world.clans).try_for_each(|clan| records.notes(clan))?;
    records.last_note_and_trailer(world.clans, bytes - used)
}

/// As many clans as the size has room for, and the bytes of all but the last note and the trailer.
fn plan(bytes: usize, seed: u64) -> Result<(World, usize)> {
    let mut world = World::new(seed);
    let mut used = size_of(&world, seed, world.counts(), true)?;
    loop {
        let before = world.counts();
        world.add_clan();
        let added = size_of(&world, seed, before, false)?;
        if used + added + SMALLEST_ENDING > bytes {
            world.drop_clan(before);
            break;
        }
        used += added;
    }
    if world.clans == 0 {
        return Err(Error::other("too few bytes for an ordinary file: 100000 are enough"));
    }
    Ok((world, used))
}

/// Bytes that the last note and the trailer have at least.
const SMALLEST_ENDING: usize = 200;

/// The bytes of what came after these counts, and of the header if that is wanted.
fn size_of(world: &World, seed: u64, before: Counts, with_header: bool) -> Result<usize> {
    let mut records = Records { seed, world, out: Vec::new() };
    if with_header {
        records.header()?;
    }
    (before.persons..world.persons.len()).try_for_each(|index| records.person(index))?;
    (before.families..world.families.len()).try_for_each(|index| records.family(index))?;
    for clan in before.clans..world.clans {
        records.sources(clan)?;
        records.repository(clan)?;
        records.notes(clan)?;
    }
    Ok(records.out.len())
}
