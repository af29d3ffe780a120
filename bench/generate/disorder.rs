//! Files that mean what an ordinary file means, in another order.

use crate::random::Random;
use std::collections::{HashMap, VecDeque};
use std::io::{Error, Result, Write};

/// Writes an ordinary file whose structures with different tags have changed places, at every depth.
pub fn disordered(bytes: usize, seed: u64, out: &mut impl Write) -> Result<()> {
    let mut plain = Vec::new();
    super::ordinary(bytes, seed, &mut plain)?;
    let text = String::from_utf8(plain).map_err(Error::other)?;
    let lines: Vec<&str> = text.lines().collect();
    let random = &mut Random::of_record(seed, 8, 0);
    // The header stays first and the trailer last.
    let header = 1 + lines[1..].iter().take_while(|line| level_and_tag(line).0 > 0).count();
    write_shuffled(&lines[..header], 0, random, out)?;
    write_shuffled(&lines[header..lines.len() - 1], 0, random, out)?;
    writeln!(out, "{}", lines[lines.len() - 1])
}

/// Writes the structures of this level, and what is below them, in another order. Those of one tag keep theirs.
fn write_shuffled(lines: &[&str], level: u8, random: &mut Random, out: &mut impl Write) -> Result<()> {
    let mut by_tag: HashMap<&str, VecDeque<&[&str]>> = HashMap::new();
    let mut tags = Vec::new();
    let mut rest = lines;
    while let Some((first, others)) = rest.split_first() {
        let below = others.iter().take_while(|line| level_and_tag(line).0 > level).count();
        let (structure, after) = rest.split_at(1 + below);
        let tag = level_and_tag(first).1;
        by_tag.entry(tag).or_default().push_back(structure);
        tags.push(tag);
        rest = after;
    }
    for last in (1..tags.len()).rev() {
        tags.swap(last, random.below(last + 1));
    }
    for tag in tags {
        if let Some(structure) = by_tag.get_mut(tag).and_then(VecDeque::pop_front) {
            write_structure(structure, level, random, out)?;
        }
    }
    Ok(())
}

/// Writes a structure: the lines of its payload as they are, what is below it in another order.
fn write_structure(lines: &[&str], level: u8, random: &mut Random, out: &mut impl Write) -> Result<()> {
    let further = lines[1..].iter().take_while(|line| level_and_tag(line) == (level + 1, "CONT")).count();
    let (payload, below) = lines.split_at(1 + further);
    payload.iter().try_for_each(|line| writeln!(out, "{line}"))?;
    write_shuffled(below, level + 1, random, out)
}

/// The level and the tag of a line.
fn level_and_tag(line: &str) -> (u8, &str) {
    let mut words = line.split(' ');
    let level = words.next().and_then(|word| word.parse().ok()).unwrap_or(0);
    let tag = words.find(|word| !word.starts_with('@')).unwrap_or("");
    (level, tag)
}
