//! Dates and times.

use crate::values::{is_extension_tag, is_integer, is_standard_tag};

/// How the months and epochs of a date are named. Julian dates are spelled as Gregorian ones.
#[derive(Clone, Copy, PartialEq, Eq)]
enum Calendar {
    Gregorian,
    French,
    Hebrew,
    Extension,
}

/// Words that are no month, whatever the calendar.
const RESERVED: [&[u8]; 14] = [
    b"FROM",
    b"TO",
    b"BET",
    b"AND",
    b"BEF",
    b"AFT",
    b"ABT",
    b"CAL",
    b"EST",
    b"BCE",
    b"GREGORIAN",
    b"JULIAN",
    b"FRENCH_R",
    b"HEBREW",
];

impl Calendar {
    fn of_word(word: &[u8]) -> Option<Calendar> {
        match word {
            b"GREGORIAN" | b"JULIAN" => Some(Calendar::Gregorian),
            b"FRENCH_R" => Some(Calendar::French),
            b"HEBREW" => Some(Calendar::Hebrew),
            _ if is_extension_tag(word) => Some(Calendar::Extension),
            _ => None,
        }
    }

    /// The greatest day of a month; none if there is no such month.
    fn greatest_day(self, month: &[u8]) -> Option<usize> {
        match (self, month) {
            (Calendar::Gregorian, b"JAN" | b"MAR" | b"MAY" | b"JUL" | b"AUG" | b"OCT" | b"DEC") => Some(31),
            (Calendar::Gregorian, b"APR" | b"JUN" | b"SEP" | b"NOV") => Some(30),
            (Calendar::Gregorian, b"FEB") => Some(29),
            (Calendar::French, b"VEND" | b"BRUM" | b"FRIM" | b"NIVO" | b"PLUV" | b"VENT" | b"GERM") => Some(30),
            (Calendar::French, b"FLOR" | b"PRAI" | b"MESS" | b"THER" | b"FRUC") => Some(30),
            (Calendar::French, b"COMP") => Some(6),
            (Calendar::Hebrew, b"TSH" | b"CSH" | b"KSL" | b"TVT" | b"SHV" | b"ADR" | b"ADS") => Some(30),
            (Calendar::Hebrew, b"NSN" | b"IYR" | b"SVN" | b"TMZ" | b"AAV" | b"ELL") => Some(30),
            (Calendar::Extension, _) if is_extension_tag(month) => Some(usize::MAX),
            (Calendar::Extension, _) if is_standard_tag(month) && !RESERVED.contains(&month) => Some(usize::MAX),
            _ => None,
        }
    }

    fn has_epoch(self, word: &[u8]) -> bool {
        match self {
            Calendar::Gregorian => word == b"BCE",
            Calendar::French | Calendar::Hebrew => false,
            Calendar::Extension => word == b"BCE" || is_extension_tag(word),
        }
    }
}

/// `[calendar] [[day] month] year [epoch]`, with a blank between the words.
fn is_date(text: &[u8]) -> bool {
    let mut words: [&[u8]; 5] = [b""; 5];
    let mut count = 0;
    for word in text.split(|&byte| byte == b' ') {
        if count == words.len() {
            return false;
        }
        words[count] = word;
        count += 1;
    }
    let (calendar, words) = match Calendar::of_word(words[0]) {
        Some(calendar) => (calendar, &words[1..count]),
        None => (Calendar::Gregorian, &words[..count]),
    };
    match *words {
        [.., year, epoch] if is_integer(year) && calendar.has_epoch(epoch) => {
            is_day_month_year(calendar, &words[..words.len() - 1])
        }
        _ => is_day_month_year(calendar, words),
    }
}

fn is_day_month_year(calendar: Calendar, words: &[&[u8]]) -> bool {
    match *words {
        [year] => is_integer(year),
        [month, year] => is_integer(year) && calendar.greatest_day(month).is_some(),
        [day, month, year] => {
            is_integer(year) && calendar.greatest_day(month).is_some_and(|greatest| is_day(day, greatest))
        }
        _ => false,
    }
}

/// A number of any length from 1 to the greatest.
fn is_day(text: &[u8], greatest: usize) -> bool {
    let zeros = text.iter().take_while(|&&byte| byte == b'0').count();
    let is_small = match text[zeros..] {
        [] => false,
        [one] => usize::from(one.wrapping_sub(b'0')) <= greatest,
        [ten, one] => usize::from(ten.wrapping_sub(b'0')) * 10 + usize::from(one.wrapping_sub(b'0')) <= greatest,
        _ => greatest == usize::MAX,
    };
    is_small && is_integer(text)
}

/// Two dates with this word between them. No date has such a word.
fn are_dates(text: &[u8], word: &[u8]) -> bool {
    let place = text.windows(word.len()).position(|part| part == word);
    place.is_some_and(|place| is_date(&text[..place]) && is_date(&text[place + word.len()..]))
}

/// Nothing, `TO date`, `FROM date` or `FROM date TO date`.
pub fn is_period(text: &[u8]) -> bool {
    match text {
        [] => true,
        [b'T', b'O', b' ', date @ ..] => is_date(date),
        [b'F', b'R', b'O', b'M', b' ', rest @ ..] => is_date(rest) || are_dates(rest, b" TO "),
        _ => false,
    }
}

/// A date, a period, or one date or two after a word that says how they are meant.
pub fn is_date_value(text: &[u8]) -> bool {
    match text {
        [b'B', b'E', b'T', b' ', rest @ ..] => are_dates(rest, b" AND "),
        [b'A', b'F', b'T', b' ', date @ ..]
        | [b'B', b'E', b'F', b' ', date @ ..]
        | [b'A', b'B', b'T', b' ', date @ ..]
        | [b'C', b'A', b'L', b' ', date @ ..]
        | [b'E', b'S', b'T', b' ', date @ ..] => is_date(date),
        _ => is_date(text) || is_period(text),
    }
}

/// `day month year` of the Gregorian calendar.
pub fn is_exact_date(text: &[u8]) -> bool {
    let mut words = text.split(|&byte| byte == b' ');
    match (words.next(), words.next(), words.next(), words.next()) {
        (Some(day), Some(month), Some(year), None) => is_day_month_year(Calendar::Gregorian, &[day, month, year]),
        _ => false,
    }
}

/// `hour:minute`, then seconds and their fraction, then `Z`, if these are given.
pub fn is_time(text: &[u8]) -> bool {
    let text = text.strip_suffix(b"Z").unwrap_or(text);
    let mut parts = text.split(|&byte| byte == b':');
    let (Some(hour), Some(minute)) = (parts.next(), parts.next()) else {
        return false;
    };
    let is_hour = matches!(hour, [b'0'..=b'9'] | [b'0' | b'1', b'0'..=b'9'] | [b'2', b'0'..=b'3']);
    is_hour
        && is_sixtieth(minute)
        && match (parts.next(), parts.next()) {
            (None, _) => true,
            (Some([ten, one, b'.', fraction @ ..]), None) => is_sixtieth(&[*ten, *one]) && is_integer(fraction),
            (Some(second), None) => is_sixtieth(second),
            _ => false,
        }
}

/// Two digits from 00 to 59.
fn is_sixtieth(text: &[u8]) -> bool {
    matches!(text, [b'0'..=b'5', b'0'..=b'9'])
}
