//! A line's parts, and what is wrong with a faulty one.

use crate::faults::Fault;
use std::str;

/// What follows a level from 0 to 99 and its space.
#[inline(always)]
pub fn after_level(line: &[u8]) -> Option<&[u8]> {
    match line {
        [b'0'..=b'9', b' ', rest @ ..] | [b'1'..=b'9', b'0'..=b'9', b' ', rest @ ..] => Some(rest),
        _ => None,
    }
}

/// What follows an identifier and its space. The text begins with `@`.
pub fn after_xref(text: &[u8]) -> Option<&[u8]> {
    let (name, rest) = text[1..].split_at(tagchars(&text[1..]));
    match rest {
        [b'@', b' ', rest @ ..] if !name.is_empty() && name != b"VOID" => Some(rest),
        _ => None,
    }
}

/// Whether a word is a tag, if its characters are those of tags.
#[inline(always)]
pub fn starts_as_tag(word: &[u8]) -> bool {
    matches!(word, [b'A'..=b'Z', ..] | [b'_', _, ..])
}

/// Whether a value that begins with `@` is a pointer, void or not, or a text whose first `@` is doubled.
pub fn is_at_value(value: &[u8]) -> bool {
    match value {
        [_, b'@', ..] => true,
        [_, name @ .., b'@'] => tagchars(name) == name.len(),
        _ => false,
    }
}

/// How many characters of a tag or an identifier stand at the start: capital letters, digits and `_`.
#[inline(always)]
pub fn tagchars(text: &[u8]) -> usize {
    text.iter().position(|&byte| !IS_TAGCHAR[usize::from(byte)]).unwrap_or(text.len())
}

static IS_TAGCHAR: [bool; 256] = {
    let mut table = [false; 256];
    let mut byte = 0;
    while byte < 0x80 {
        table[byte] = matches!(byte as u8, b'A'..=b'Z' | b'0'..=b'9' | b'_');
        byte += 1;
    }
    table
};

/// The fault of a faulty line: its lowest, each looked for in turn.
#[cold]
pub fn fault_of(line: &[u8]) -> Fault {
    let Ok(text) = str::from_utf8(line) else {
        return Fault::NotUtf8;
    };
    if text.chars().any(|c| matches!(c, '\0'..='\x08' | '\x0A'..='\x1F' | '\x7F' | '\u{FFFE}' | '\u{FFFF}')) {
        return Fault::BannedCharacter;
    }
    if line.is_empty() {
        return Fault::EmptyLine;
    }
    let Some(rest) = after_level(line) else {
        let digits = line.iter().take_while(|byte| byte.is_ascii_digit()).count();
        let is_level = digits > 0 && line[0] != b'0' && line.get(digits) == Some(&b' ');
        return if is_level { Fault::LevelTooLarge } else { Fault::BadLevel };
    };
    let rest = match rest {
        [b'@', ..] => match after_xref(rest) {
            Some(rest) => rest,
            None => return Fault::BadXref,
        },
        _ => rest,
    };
    let tag = rest.split(|&byte| byte == b' ').next().unwrap_or(rest);
    if starts_as_tag(tag) && tagchars(tag) == tag.len() {
        Fault::BadValue
    } else {
        Fault::BadTag
    }
}
