//! Files that are hard to read: long lines, short lines, unusual bytes, faults; and files that are hard to walk
//! through: many structures in one place, deep ones, ones in an unlucky order.

use crate::collisions::{links_of_one_group, names_of_one_group, names_of_one_hash, names_of_one_slot};
use crate::disorder::disordered;
use std::io::{Error, Result, Write};

/// Writes a file of this shape. Those that are listed here are hard for the reading of lines.
pub fn write(shape: &str, bytes: usize, seed: u64, out: &mut impl Write) -> Result<()> {
    match shape {
        // One line of a text.
        "one-line" => stretch("0 NOTE ", "a", bytes, out),
        // A valid file of the shortest lines.
        "short-lines" => stretch("", "0 A\n", bytes, out),
        // Nothing but line ends: a fault at line 1.
        "line-ends" => stretch("", "\n", bytes, out),
        // The lines of an ordinary file with CR LF ends and a blank after each empty value.
        "crlf" => respelled(bytes, seed, "\r\n", out),
        // The same with CR ends.
        "cr" => respelled(bytes, seed, "\r", out),
        // Letters that begin with the byte EF, as the two banned noncharacters do.
        "full-width" => stretch("0 NOTE ", "\u{FF21}\u{FF22}\u{FF23}\n1 CONT ", bytes, out),
        // Such letters in one line.
        "full-width-line" => stretch("0 NOTE ", "\u{FF21}", bytes, out),
        // A level of many digits: a fault at line 1.
        "long-level" => stretch("9", "9", bytes, out),
        // A cross-reference identifier of many characters.
        "long-xref" => stretch("0 @X", "X", bytes - "@ A\n".len(), out).and_then(|()| out.write_all(b"@ A\n")),
        // A tag of many characters.
        "long-tag" => stretch("0 T", "T", bytes, out),
        // Pointers, each of them long.
        "pointers" => stretch("", &format!("1 FAMS @{}@\n", "F".repeat(200)), bytes, out),
        // An ordinary file whose last line has a fault.
        "late-fault" => super::ordinary(bytes - "0 x\n".len(), seed, out).and_then(|()| out.write_all(b"0 x\n")),
        _ => write_tree(shape, bytes, seed, out),
    }
}

/// The same for shapes that are hard for what follows on the reading of lines. Each is an accepted file.
fn write_tree(shape: &str, bytes: usize, seed: u64, out: &mut impl Write) -> Result<()> {
    match shape {
        // An ordinary file whose records, and the structures in them, stand in any order that keeps its meaning.
        "disordered" => disordered(bytes, seed, out),
        // One person with very many facts of several kinds.
        "many-children" => grow("0 INDI\n", bytes, |number| FACTS[number % FACTS.len()].to_string(), out),
        // One family with very many children, each of whom names it in turn, and one with children who do not.
        "big-family" => big_family(bytes, "1 FAMC @F@\n", out),
        "one-way-family" => big_family(bytes, "", out),
        // Very many persons with nothing but an identifier.
        "many-records" => grow("", bytes, |number| format!("0 @I{number:07}@ INDI\n"), out),
        // Very many persons, each of whom names one half the file away.
        "far-pointers" => far_pointers(bytes, |number| format!("I{number:07}"), out),
        // The same with names of twelve digits, of which few are there, as of programs that count the records of all files.
        "far-pointers-long-numbers" => far_pointers(bytes, |number| format!("I{}", 322_160_000_000 + 37 * number), out),
        // The same with names of 18 letters and digits in no order.
        "far-pointers-texts" => far_pointers(bytes, |number| format!("ID{:016X}", scattered(number as u64)), out),
        // Persons whose names have one hash, others whose names, or links, share low bits of theirs, or a slot: collisions.rs.
        "names-of-one-hash" => names_of_one_hash(bytes, out),
        "names-of-one-group" => names_of_one_group(bytes, out),
        "names-of-one-slot" => names_of_one_slot(bytes, out),
        "links-of-one-group" => links_of_one_group(bytes, out),
        // Structures one below the other down to the deepest level, again and again.
        "deep" => grow("", bytes, |_| (0..100).map(|level| format!("{level} _A\n")).collect(), out),
        // One text of very many lines.
        "long-payload" => grow("0 SNOTE a\n", bytes, |_| "1 CONT b\n".to_string(), out),
        // One person with very many notes that are all the same.
        "equal-siblings" => grow("0 INDI\n", bytes, |_| "1 NOTE Nothing is known.\n".to_string(), out),
        // One person with very many facts of two kinds, in turn.
        "alternating-tags" => grow("0 INDI\n", bytes, |number| FACTS[1 + number % 2].to_string(), out),
        // One person with very many structures, each with a tag of its own, the last in order first.
        "falling-tags" => grow("0 INDI\n", bytes, |number| format!("1 _T{:08}\n", 99_999_999 - number), out),
        // The same in order, but for a first and a last one with very long tags, which begin as all others do.
        "long-tags" => long_tags(bytes, out),
        // Very many persons with a tag that the tables do not list, which is a notice for each.
        "unlisted-tags" => grow("", bytes, |_| "0 INDI\n1 AFN 1\n".to_string(), out),
        // Very many dates with the default calendar's keyword and leading zeros, which canonical forms leave out.
        "long-dates" => grow("", bytes, |_| LONG_DATE.to_string(), out),
        // Very many records of several kinds, in turn.
        "mixed-records" => grow("", bytes, |number| RECORDS[number % RECORDS.len()].to_string(), out),
        _ => Err(Error::other(format!("no such shape: {shape}"))),
    }
}

const FACTS: [&str; 6] = ["1 NAME A /B/\n", "1 OCCU a\n", "1 NOTE b\n", "1 DEAT Y\n", "1 NCHI 3\n", "1 _A\n"];

const LONG_DATE: &str = "0 INDI\n1 BIRT\n2 DATE BET GREGORIAN 01 JAN 0900 AND GREGORIAN 0901\n";

const RECORDS: [&str; 7] = ["0 INDI\n", "0 FAM\n", "0 SOUR a\n", "0 _A\n", "0 OBJE\n", "0 SNOTE b\n", "0 _B\n"];

pub const HEADER: &str = "0 HEAD\n1 GEDC\n2 VERS 7.0\n";

pub const TRAILER: &str = "0 TRLR\n";

/// The header, the start, as many parts as the size has room for, each made from its number, and the trailer.
fn grow(start: &str, bytes: usize, part: impl Fn(usize) -> String, out: &mut impl Write) -> Result<()> {
    write!(out, "{HEADER}{start}")?;
    let mut room = bytes.saturating_sub(HEADER.len() + start.len() + TRAILER.len());
    for number in 0.. {
        let part = part(number);
        if part.len() > room {
            break;
        }
        out.write_all(part.as_bytes())?;
        room -= part.len();
    }
    out.write_all(TRAILER.as_bytes())
}

/// A person's structures in the order of their tags, but for a first and a last one, whose tags have a third of the size each.
fn long_tags(bytes: usize, out: &mut impl Write) -> Result<()> {
    let long = "Z".repeat(bytes / 3);
    let (first, last) = (format!("0 INDI\n1 _LONGTAGN{long}\n"), format!("1 _LONGTAGA{long}\n"));
    let part = |number: usize| format!("1 _LONGTAGM{number:07}\n");
    let room = bytes.saturating_sub(HEADER.len() + first.len() + last.len() + TRAILER.len());
    write!(out, "{HEADER}{first}")?;
    (0..room / part(0).len()).try_for_each(|number| out.write_all(part(number).as_bytes()))?;
    write!(out, "{last}{TRAILER}")
}

/// A family and its children, each of whom has this answer to it.
fn big_family(bytes: usize, answer: &str, out: &mut impl Write) -> Result<()> {
    let child = |number: usize| format!("1 CHIL @I{number:07}@\n");
    let person = |number: usize| format!("0 @I{number:07}@ INDI\n{answer}");
    let family = "0 @F@ FAM\n";
    let room = bytes.saturating_sub(HEADER.len() + family.len() + TRAILER.len());
    let count = room / (child(0).len() + person(0).len());
    write!(out, "{HEADER}{family}")?;
    (0..count).try_for_each(|number| out.write_all(child(number).as_bytes()))?;
    (0..count).try_for_each(|number| out.write_all(person(number).as_bytes()))?;
    out.write_all(TRAILER.as_bytes())
}

/// Another number for each one. The multiplier is odd, so no two have the same.
fn scattered(number: u64) -> u64 {
    number.wrapping_mul(0x9E37_79B9_7F4A_7C15)
}

/// Persons with these names, which are all of one length.
fn far_pointers(bytes: usize, name: impl Fn(usize) -> String, out: &mut impl Write) -> Result<()> {
    let part = |number: usize, other: usize| format!("0 @{}@ INDI\n1 ALIA @{}@\n", name(number), name(other));
    let count = (bytes.saturating_sub(HEADER.len() + TRAILER.len()) / part(0, 0).len()).max(1);
    grow("", bytes, |number| part(number, (number + count / 2) % count), out)
}

/// The start, then the part as often as the size has room for it.
fn stretch(start: &str, part: &str, bytes: usize, out: &mut impl Write) -> Result<()> {
    out.write_all(start.as_bytes())?;
    let left = bytes.saturating_sub(start.len());
    for _ in 0..left / part.len() {
        out.write_all(part.as_bytes())?;
    }
    Ok(())
}

/// The lines of an ordinary file, with this end and a blank after each empty value.
fn respelled(bytes: usize, seed: u64, end: &str, out: &mut impl Write) -> Result<()> {
    let mut plain = Vec::new();
    super::ordinary(bytes, seed, &mut plain)?;
    let text = String::from_utf8(plain).map_err(Error::other)?;
    for line in text.lines() {
        let blank = if line.split(' ').count() == 2 && !line.starts_with("0 @") { " " } else { "" };
        write!(out, "{line}{blank}{end}")?;
    }
    Ok(())
}
