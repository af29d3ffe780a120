//! Files whose names, or links, were chosen to have one place in a hash table: what someone writes who knows how a
//! program hashes, and wants it to be slow.
//!
//! Two hashers are meant. One multiplies, and begins with a fixed start, as that of the crate `indexmap` in Rattle. The
//! other is SipHash, begun with a key, as gedtool's; whoever chooses names cannot know the key that they will have,
//! so those here collide under the key 0.

use crate::shapes::{HEADER, TRAILER};
use std::collections::hash_map::DefaultHasher;
use std::hash::Hasher;
use std::io::{Result, Write};

const START: u64 = 0x243F_6A88_85A3_08D3;

const MULTIPLIER: u64 = 0x9E37_79B9_7F4A_7C15;

/// How many low bits of their hashes names or links have in common, where these cannot be made equal. So one in so
/// many of those that are tried is taken.
const SHARED_BITS: u32 = 8;

/// Very many persons, each of whom names one half the file away, with names of 32 letters that have one hash under the
/// hasher that multiplies: whatever the last eight letters are, they are multiplied by 0.
pub fn names_of_one_hash(bytes: usize, out: &mut impl Write) -> Result<()> {
    let front = front_of_zero();
    let names: Vec<String> =
        (0..count_of(bytes, 32)).map(|number| front.clone() + &text(letters::<8>(b'A', number as u64))).collect();
    each_names_another(&names, out)
}

/// The same with names of 12 and of 7 letters in turn, whose hashes share their low bits: those of the longer ones under
/// SipHash with the key 0, as those of one half of the shorter ones, and the other half's under the hasher that multiplies.
pub fn names_of_one_group(bytes: usize, out: &mut impl Write) -> Result<()> {
    let count = count_of(bytes, 10);
    let mut long = (0..).map(|number| letters::<12>(b'L', number));
    // The shorter ones begin with another letter where another hasher is meant, so that no two are the same.
    let mut short = (0..).map(|number| letters::<7>(b'S', number));
    let mut folded = (0..).map(|number| letters::<7>(b'F', number));
    let next = |number: usize| match number % 4 {
        0 | 2 => long.find(|name| is_in_group(sip_of_text(name))).map(text),
        1 => short.find(|name| is_in_group(sip_of_number(number_of(name)))).map(text),
        _ => folded.find(|name| is_in_group(multiplied(START, number_of(name)))).map(text),
    };
    let names: Vec<String> = (0..count).filter_map(next).collect();
    each_names_another(&names, out)
}

/// The same with names of eight bytes, of which 2,187 each say the same number by the low four bits of their bytes, so that gedtool
/// looks for them in one slot of its table.
pub fn names_of_one_slot(bytes: usize, out: &mut impl Write) -> Result<()> {
    const DIGITS: [[u8; 3]; 8] = [*b"1AQ", *b"2BR", *b"3CS", *b"4DT", *b"5EU", *b"6FV", *b"7GW", *b"8HX"];
    let name = |number: usize| {
        let (mut group, mut choice) = (number / 2187, number % 2187);
        let mut name = [b'I'; 8];
        for byte in name.iter_mut().skip(1) {
            *byte = DIGITS[group % 8][choice % 3];
            (group, choice) = (group / 8, choice / 3);
        }
        text(name)
    };
    let names: Vec<String> = (0..count_of(bytes, 8)).map(name).collect();
    each_names_another(&names, out)
}

/// Families and their children, where the places of each child and its family, as one key, have a hash that shares its low
/// bits with all others under the hasher that multiplies. No family has more than four children.
pub fn links_of_one_group(bytes: usize, out: &mut impl Write) -> Result<()> {
    const ROOM: usize = 4;
    let person = |number: usize, family: usize| format!("0 @I{number:07}@ INDI\n1 FAMC @F{family:07}@\n");
    let (head, child, filler) = ("0 @F0000000@ FAM\n", |number: usize| format!("1 CHIL @I{number:07}@\n"), "1 _A\n");
    // Two families for each person, with room for eight children, so that a place is soon found.
    let families = (bytes.saturating_sub(HEADER.len() + TRAILER.len())
        / (head.len() + ROOM * filler.len() + (person(0, 0).len() + child(0).len() - filler.len()) / 2))
        .max(1);
    let persons = families / 2;
    let mut children = vec![Vec::new(); families];
    let mut family_of = Vec::with_capacity(persons);
    let mut next = 0;
    for number in 0..persons {
        let low = 3 + 2 * number;
        let family = (0..families)
            .map(|step| (next + step) % families)
            .find(|family| {
                let high = 3 + 2 * persons + (1 + ROOM) * family;
                children[*family].len() < ROOM && is_in_group(multiplied(multiplied(START, low as u64), high as u64))
            })
            .unwrap_or(number % families);
        next = family + 1;
        children[family].push(number);
        family_of.push(family);
    }
    write!(out, "{HEADER}")?;
    for (number, family) in family_of.iter().enumerate() {
        out.write_all(person(number, *family).as_bytes())?;
    }
    for (number, children) in children.iter().enumerate() {
        write!(out, "0 @F{number:07}@ FAM\n")?;
        children.iter().try_for_each(|number| out.write_all(child(*number).as_bytes()))?;
        (children.len()..ROOM).try_for_each(|_| out.write_all(filler.as_bytes()))?;
    }
    out.write_all(TRAILER.as_bytes())
}

/// Persons with these names, each of whom names one half the file away.
fn each_names_another(names: &[String], out: &mut impl Write) -> Result<()> {
    write!(out, "{HEADER}")?;
    for (name, other) in names.iter().zip(names.iter().cycle().skip(names.len() / 2)) {
        write!(out, "0 @{name}@ INDI\n1 ALIA @{other}@\n")?;
    }
    out.write_all(TRAILER.as_bytes())
}

/// How many persons with names of so many letters a size has room for.
fn count_of(bytes: usize, length: usize) -> usize {
    let part = "0 @@ INDI\n1 ALIA @@\n".len() + 2 * length;
    (bytes.saturating_sub(HEADER.len() + TRAILER.len()) / part).max(1)
}

/// 24 letters such that the hasher that multiplies multiplies what follows on them by 0: the last eight are its state
/// after the first sixteen.
fn front_of_zero() -> String {
    for number in 0.. {
        let (first, second) = (letters::<8>(b'A', 0), letters::<8>(b'A', number));
        let state = folded(word(&first) ^ (START + 32), word(&second) ^ MULTIPLIER).to_le_bytes();
        if state.iter().all(|byte| byte.is_ascii_uppercase() || byte.is_ascii_digit() || *byte == b'_') {
            return [first, second, state].map(text).concat();
        }
    }
    unreachable!("some letters of all will do")
}

/// The first letter, and a number in as many more as there is room for, the last one counting 1.
fn letters<const LENGTH: usize>(first: u8, mut number: u64) -> [u8; LENGTH] {
    let mut letters = [b'A'; LENGTH];
    for letter in letters.iter_mut().rev() {
        *letter += (number % 26) as u8;
        number /= 26;
    }
    letters[0] = first;
    letters
}

fn text<const LENGTH: usize>(letters: [u8; LENGTH]) -> String {
    letters.into_iter().map(char::from).collect()
}

/// Up to eight letters as a number, the first of them lowest.
fn word(letters: &[u8]) -> u64 {
    letters.iter().rev().fold(0, |number, letter| number << 8 | u64::from(*letter))
}

/// A name of seven letters as gedtool keeps it.
fn number_of(name: &[u8; 7]) -> u64 {
    word(name) | 1 << 56
}

/// The two halves of a product, joined by exclusive or.
fn folded(a: u64, b: u64) -> u64 {
    let product = u128::from(a) * u128::from(b);
    product as u64 ^ (product >> 64) as u64
}

/// The state of the hasher that multiplies after a number of eight bytes.
fn multiplied(state: u64, number: u64) -> u64 {
    folded(state ^ number, MULTIPLIER ^ 16)
}

/// SipHash-1-3 of a text, begun with the key 0.
fn sip_of_text(text: &[u8]) -> u64 {
    let mut hasher = DefaultHasher::new();
    hasher.write_u64(0);
    hasher.write(text);
    hasher.write_u8(0xFF);
    hasher.finish()
}

/// The same of a number.
fn sip_of_number(number: u64) -> u64 {
    let mut hasher = DefaultHasher::new();
    hasher.write_u64(0);
    hasher.write_u64(number);
    hasher.finish()
}

/// Whether a hash has no low bit set, as a table takes its bits.
fn is_in_group(hash: u64) -> bool {
    (hash ^ hash >> 32).trailing_zeros() >= SHARED_BITS
}
