//! Which payloads are of which kind.

use crate::dates::{is_date_value, is_exact_date, is_period, is_time};
use crate::tags;

/// The kinds of payloads, named as they are shown.
#[derive(Clone, Copy, PartialEq, Eq)]
pub enum Kind {
    Nothing,
    Text,
    Free,
    EventFlag,
    Integer,
    Version,
    DateValue,
    DatePeriod,
    DateExact,
    Time,
    Age,
    Name,
    EnumAny,
    SexEnum,
    PediEnum,
    StatEnum,
    NameTypeEnum,
    ResnList,
    ToFam,
    ToIndi,
    ToSubm,
    ToSnote,
    ToSour,
    ToObje,
}

/// The kinds in the order above, with their words.
const KINDS: [(Kind, &str); 24] = [
    (Kind::Nothing, "Nothing"),
    (Kind::Text, "Text"),
    (Kind::Free, "Free"),
    (Kind::EventFlag, "EventFlag"),
    (Kind::Integer, "Integer"),
    (Kind::Version, "Version"),
    (Kind::DateValue, "DateValue"),
    (Kind::DatePeriod, "DatePeriod"),
    (Kind::DateExact, "DateExact"),
    (Kind::Time, "Time"),
    (Kind::Age, "Age"),
    (Kind::Name, "Name"),
    (Kind::EnumAny, "EnumAny"),
    (Kind::SexEnum, "SexEnum"),
    (Kind::PediEnum, "PediEnum"),
    (Kind::StatEnum, "StatEnum"),
    (Kind::NameTypeEnum, "NameTypeEnum"),
    (Kind::ResnList, "ResnList"),
    (Kind::ToFam, "ToFam"),
    (Kind::ToIndi, "ToIndi"),
    (Kind::ToSubm, "ToSubm"),
    (Kind::ToSnote, "ToSnote"),
    (Kind::ToSour, "ToSour"),
    (Kind::ToObje, "ToObje"),
];

impl Kind {
    pub fn word(self) -> &'static str {
        KINDS[self as usize].1
    }

    pub fn of_word(word: &str) -> Kind {
        KINDS.iter().find(|kind| kind.1 == word).expect("the tables name these kinds alone").0
    }

    /// The number of the tag that a pointer's record must have; none for a kind that isn't of pointers.
    pub fn target(self) -> Option<u8> {
        Some(match self {
            Kind::ToFam => tags::FAM,
            Kind::ToIndi => tags::INDI,
            Kind::ToSubm => tags::SUBM,
            Kind::ToSnote => tags::SNOTE,
            Kind::ToSour => tags::SOUR,
            Kind::ToObje => tags::OBJE,
            _ => return None,
        })
    }

    /// Whether a text of one line is of this kind, which isn't one of pointers.
    pub fn fits_line(self, text: &[u8]) -> bool {
        match self {
            Kind::Text | Kind::Free => true,
            Kind::Nothing => text.is_empty(),
            Kind::EventFlag => text.is_empty() || text == b"Y",
            Kind::Integer => is_integer(text),
            Kind::Version => text == b"7.0" || text.strip_prefix(b"7.0.").is_some_and(is_integer),
            Kind::DateValue => is_date_value(text),
            Kind::DatePeriod => is_period(text),
            Kind::DateExact => is_exact_date(text),
            Kind::Time => is_time(text),
            Kind::Age => is_age(text),
            Kind::Name => is_name(text),
            Kind::EnumAny => is_integer(text) || is_standard_tag(text) || is_extension_tag(text),
            Kind::SexEnum => is_one_of(text, &["M", "F", "X", "U"]),
            Kind::PediEnum => is_one_of(text, &["ADOPTED", "BIRTH", "FOSTER", "SEALING", "OTHER"]),
            Kind::StatEnum => is_one_of(text, &["CHALLENGED", "DISPROVEN", "PROVEN"]),
            Kind::NameTypeEnum => {
                is_one_of(text, &["AKA", "BIRTH", "IMMIGRANT", "MAIDEN", "MARRIED", "PROFESSIONAL", "OTHER"])
            }
            Kind::ResnList => is_restriction(text),
            Kind::ToFam | Kind::ToIndi | Kind::ToSubm | Kind::ToSnote | Kind::ToSour | Kind::ToObje => false,
        }
    }
}

/// One or more digits.
pub fn is_integer(text: &[u8]) -> bool {
    !text.is_empty() && text.iter().all(u8::is_ascii_digit)
}

fn are_tagchars(text: &[u8]) -> bool {
    text.iter().all(|byte| matches!(byte, b'A'..=b'Z' | b'0'..=b'9' | b'_'))
}

pub fn is_standard_tag(text: &[u8]) -> bool {
    matches!(text, [b'A'..=b'Z', rest @ ..] if are_tagchars(rest))
}

pub fn is_extension_tag(text: &[u8]) -> bool {
    matches!(text, [b'_', rest @ ..] if !rest.is_empty() && are_tagchars(rest))
}

/// One of the words of a set, or an extension tag.
fn is_one_of(text: &[u8], words: &[&str]) -> bool {
    words.iter().any(|word| word.as_bytes() == text) || is_extension_tag(text)
}

/// Words apart by commas, with any number of blanks before and after a comma.
fn is_restriction(text: &[u8]) -> bool {
    let is_padded = text.starts_with(b" ") || text.ends_with(b" ");
    let is_item = |item: &[u8]| is_one_of(item, &["CONFIDENTIAL", "LOCKED", "PRIVACY"]);
    !is_padded && text.split(|&byte| byte == b',').all(|item| is_item(without_blanks(item)))
}

fn without_blanks(mut text: &[u8]) -> &[u8] {
    while let [b' ', rest @ ..] | [rest @ .., b' '] = text {
        text = rest;
    }
    text
}

/// Nothing, or years, months, weeks and days, each at most once, after `<` or `>` if that stands first.
fn is_age(text: &[u8]) -> bool {
    let parts = match text {
        [] => return true,
        [b'<' | b'>', b' ', rest @ ..] => rest,
        _ => text,
    };
    let mut letters: &[u8] = b"ymwd";
    parts.split(|&byte| byte == b' ').all(|part| match part {
        [digits @ .., letter] if is_integer(digits) => {
            let place = letters.iter().position(|other| other == letter);
            letters = place.map_or(&[], |place| &letters[place + 1..]);
            place.is_some()
        }
        _ => false,
    })
}

/// No control character, and no slash or two.
fn is_name(text: &[u8]) -> bool {
    let slashes = text.iter().filter(|&&byte| byte == b'/').count();
    (slashes == 0 || slashes == 2) && text.iter().all(|&byte| byte >= b' ')
}
