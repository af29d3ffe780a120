//! Dates and ordinary prose.

use crate::random::Random;
use crate::words;

const MONTHS: &[(&str, usize)] = &[
    ("JAN", 31),
    ("FEB", 28),
    ("MAR", 31),
    ("APR", 30),
    ("MAY", 31),
    ("JUN", 30),
    ("JUL", 31),
    ("AUG", 31),
    ("SEP", 30),
    ("OCT", 31),
    ("NOV", 30),
    ("DEC", 31),
];

/// A day, month and year.
pub fn exact_date(random: &mut Random, year: usize) -> String {
    let (month, days) = MONTHS[random.below(MONTHS.len())];
    format!("{} {month} {year}", random.between(1, days))
}

/// A date of the kinds that ordinary files have, mostly exact.
pub fn date(random: &mut Random, year: usize) -> String {
    match random.below(100) {
        0..=59 => exact_date(random, year),
        60..=69 => format!("{} {year}", MONTHS[random.below(MONTHS.len())].0),
        70..=77 => format!("{year}"),
        78..=85 => format!("ABT {year}"),
        86..=88 => format!("BEF {}", exact_date(random, year)),
        89..=91 => format!("AFT {year}"),
        92..=93 => format!("BET {year} AND {}", year + random.between(1, 5)),
        94 => format!("CAL {year}"),
        95 => format!("EST {year}"),
        96 => format!("FROM {year} TO {}", year + random.between(1, 9)),
        97..=98 => format!("JULIAN {}", exact_date(random, year)),
        _ => format!("GREGORIAN {}", exact_date(random, year)),
    }
}

fn sentence(random: &mut Random) -> String {
    let (place, other) = (random.pick(words::PLACES), random.pick(words::PLACES));
    let (kin, trade, book) = (random.pick(words::KIN), random.pick(words::TRADES), random.pick(words::BOOKS));
    let year = random.between(1700, 1950);
    match random.below(14) {
        0 => format!("Moved from {place} to {other} about {year} together with the {kin}."),
        1 => format!("The {book} of {place} names the father as {trade}, which later entries don't repeat."),
        2 => format!("According to a letter of {year} the family kept two cows and a small garden behind the house."),
        3 => format!("Worked as {trade} in {place} until {year}, then took over the business of the {kin}."),
        4 => "No entry was found in the index; the pages for that spring are missing.".to_string(),
        5 => format!("The age that is given in {year} doesn't agree with the baptism – it is two years too low."),
        6 => format!("The {kin} stood as witness; the signature is a cross."),
        7 => format!(
            "Family tradition has it that the house in {place} burned down in {year} and that everything was lost."
        ),
        8 => format!("“We are all well and hope the same of you,” wrote the {kin} from {other}."),
        9 => format!("See also the {book}, volume {}, page {}.", random.between(1, 40), random.between(1, 600)),
        10 => {
            format!("The name is also spelled {} and {}.", random.pick(words::SURNAMES), random.pick(words::SURNAMES))
        }
        11 => format!("Served in the militia from {year} to {} and came home unharmed.", year + 3),
        12 => format!("Der Eintrag für {place} ist schwer zu lesen; vermutlich {trade}."),
        _ => format!(
            "Still living in {year}, when the census taker found {} people under one roof.",
            random.between(3, 14)
        ),
    }
}

/// A paragraph of ordinary prose.
pub fn paragraph(random: &mut Random, sentences: usize) -> String {
    let mut text = sentence(random);
    for _ in 1..sentences {
        text.push(' ');
        text.push_str(&sentence(random));
    }
    text
}

/// The lines of a note: paragraphs, some of them broken into short lines, some apart by an empty line,
/// now and then a line that begins with `@`.
pub fn note(random: &mut Random) -> Vec<String> {
    let broken = random.chance(60);
    let mut lines = Vec::new();
    for number in 0..random.between(1, 3) {
        if number > 0 && random.chance(50) {
            lines.push(String::new());
        }
        let sentences = random.between(1, 5);
        let text = paragraph(random, sentences);
        if broken {
            break_lines(&text, random.between(56, 78), &mut lines);
        } else {
            lines.push(text);
        }
    }
    if random.chance(4) {
        lines.push(format!("@{} asked for a copy of this page.", random.pick(words::SURNAMES)));
    }
    lines
}

fn break_lines(text: &str, width: usize, lines: &mut Vec<String>) {
    let mut line = String::new();
    for word in text.split(' ') {
        if !line.is_empty() && line.len() + word.len() >= width {
            lines.push(std::mem::take(&mut line));
        }
        if !line.is_empty() {
            line.push(' ');
        }
        line.push_str(word);
    }
    lines.push(line);
}
