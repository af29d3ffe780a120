//! How the records of an ordinary file are spelled; those of persons and families are in `people.rs`.

use crate::prose::{date, exact_date, note, paragraph};
use crate::random::Random;
use crate::words;
use crate::world::World;
use std::io::{Result, Write};

const SOURCES_PER_CLAN: usize = 3;
const NOTES_PER_CLAN: usize = 2;
const CLANS_PER_REPOSITORY: usize = 4;

const HEADER: &str = "\
0 HEAD
1 GEDC
2 VERS 7.0
1 SCHMA
2 TAG _UPD https://example.org/terms/_UPD
1 SOUR FamilyBook
2 VERS 4.2
2 NAME Family Book
1 DEST ANY
1 DATE 14 FEB 2024
2 TIME 09:30:05
1 SUBM @U1@
1 COPR Free to use
1 LANG en
1 PLAC
2 FORM Town, County, Country
1 NOTE This file was made by a program.
2 CONT
2 CONT None of its persons ever lived.
0 @U1@ SUBM
1 NAME Zoë Bérenger
1 ADDR 12 Mill Lane
2 CONT Leeds
2 CITY Leeds
2 CTRY England
1 EMAIL zoe@example.org
1 LANG en
";

const TRAILER: &str = "0 TRLR\n";

/// Writes the records of one file. Each record has random numbers of its own, so its spelling depends on
/// the seed, its kind and its place alone.
pub struct Records<'a, W> {
    pub seed: u64,
    pub world: &'a World,
    pub out: W,
}

impl<W: Write> Records<'_, W> {
    /// The header and the submitter.
    pub fn header(&mut self) -> Result<()> {
        self.out.write_all(HEADER.as_bytes())
    }

    /// A text of several lines after this start. A line that begins with `@` is written with that one doubled.
    fn text(&mut self, level: u8, start: &str, lines: &[String]) -> Result<()> {
        write!(self.out, "{level} {start}")?;
        for (number, line) in lines.iter().enumerate() {
            if number > 0 {
                write!(self.out, "{} CONT", level + 1)?;
            }
            match line.as_bytes().first() {
                None => writeln!(self.out)?,
                Some(b'@') => writeln!(self.out, " @{line}")?,
                Some(_) => writeln!(self.out, " {line}")?,
            }
        }
        Ok(())
    }

    /// A citation of a source of this clan or of one before it.
    pub fn citation(&mut self, random: &mut Random, level: u8, clan: usize) -> Result<()> {
        let (inner, innermost) = (level + 1, level + 2);
        writeln!(self.out, "{level} SOUR @S{}@", random.between(1, (clan + 1) * SOURCES_PER_CLAN))?;
        let (number, volume, page) = (random.between(1, 900), random.between(1, 30), random.between(1, 400));
        match random.below(3) {
            0 => writeln!(self.out, "{inner} PAGE p. {number}")?,
            1 => writeln!(self.out, "{inner} PAGE vol. {volume}, fol. {page}v, no. {number}")?,
            _ => writeln!(self.out, "{inner} PAGE Film {volume}{number:05}, image {page} of 412")?,
        }
        if random.chance(20) {
            let year = random.between(1750, 1940);
            writeln!(self.out, "{inner} DATA")?;
            writeln!(self.out, "{innermost} DATE {}", date(random, year))?;
            writeln!(self.out, "{innermost} TEXT {}", paragraph(random, 1))?;
        }
        if random.chance(30) {
            writeln!(self.out, "{inner} QUAY {}", random.below(4))?;
        }
        Ok(())
    }

    /// What stands below an event or a fact: a date, and mostly a place, a citation or a note.
    pub fn detail(&mut self, random: &mut Random, clan: usize, year: usize) -> Result<()> {
        writeln!(self.out, "2 DATE {}", date(random, year))?;
        if random.chance(80) {
            writeln!(self.out, "2 PLAC {}", random.pick(words::PLACES))?;
        }
        if random.chance(4) {
            writeln!(self.out, "2 ADDR {} Church Street", random.between(1, 180))?;
            writeln!(self.out, "3 CITY {}", random.pick(words::PLACES))?;
        }
        if random.chance(45) {
            self.citation(random, 2, clan)?;
        }
        if random.chance(5) {
            self.text(2, "NOTE", &note(random))?;
        }
        Ok(())
    }

    /// Notes, citations and the date of change, as they stand at the end of a record.
    pub fn ending(&mut self, random: &mut Random, clan: usize) -> Result<()> {
        if random.chance(20) {
            self.text(1, "NOTE", &note(random))?;
        }
        if random.chance(6) {
            writeln!(self.out, "1 SNOTE @N{}@", random.between(1, (clan + 1) * NOTES_PER_CLAN))?;
        }
        if random.chance(30) {
            self.citation(random, 1, clan)?;
        }
        if random.chance(60) {
            let (year, hour) = (random.between(1998, 2023), random.below(24));
            let (minute, second) = (random.below(60), random.below(60));
            writeln!(self.out, "1 CHAN")?;
            writeln!(self.out, "2 DATE {}", exact_date(random, year))?;
            writeln!(self.out, "3 TIME {hour:02}:{minute:02}:{second:02}")?;
        }
        Ok(())
    }

    /// The sources that came with a clan.
    pub fn sources(&mut self, clan: usize) -> Result<()> {
        for index in clan * SOURCES_PER_CLAN..(clan + 1) * SOURCES_PER_CLAN {
            let random = &mut Random::of_record(self.seed, 4, index);
            let (book, place, archive) =
                (random.pick(words::BOOKS), random.pick(words::PLACES), random.pick(words::ARCHIVES));
            let (year, years) = (random.between(1650, 1900), random.between(5, 60));
            writeln!(self.out, "0 @S{}@ SOUR", index + 1)?;
            writeln!(self.out, "1 TITL {book}, {place}, {year}–{}", year + years)?;
            writeln!(self.out, "1 AUTH {} {}", random.pick(words::MEN), random.pick(words::SURNAMES))?;
            writeln!(self.out, "1 PUBL {place}: {archive}")?;
            writeln!(self.out, "1 ABBR {book} {year}")?;
            writeln!(self.out, "1 REPO @R{}@", random.between(1, clan / CLANS_PER_REPOSITORY + 1))?;
            writeln!(self.out, "2 CALN {}/{}", random.between(1, 99), random.between(1, 9999))?;
            if random.chance(20) {
                self.text(1, "NOTE", &note(random))?;
            }
        }
        Ok(())
    }

    /// The repository that came with a clan, if one did.
    pub fn repository(&mut self, clan: usize) -> Result<()> {
        if clan % CLANS_PER_REPOSITORY != 0 {
            return Ok(());
        }
        let random = &mut Random::of_record(self.seed, 5, clan);
        let (archive, place) = (random.pick(words::ARCHIVES), random.pick(words::PLACES));
        writeln!(self.out, "0 @R{}@ REPO", clan / CLANS_PER_REPOSITORY + 1)?;
        writeln!(self.out, "1 NAME {archive}, {place}")?;
        writeln!(self.out, "1 ADDR {} Church Street", random.between(1, 180))?;
        writeln!(self.out, "2 CONT {place}")?;
        writeln!(self.out, "1 WWW https://archive{}.example.org/", random.below(100))
    }

    /// The shared notes that came with a clan.
    pub fn notes(&mut self, clan: usize) -> Result<()> {
        for index in clan * NOTES_PER_CLAN..(clan + 1) * NOTES_PER_CLAN {
            let random = &mut Random::of_record(self.seed, 6, index);
            self.text(0, &format!("@N{}@ SNOTE", index + 1), &note(random))?;
        }
        Ok(())
    }

    /// A last shared note and the trailer, together of just so many bytes (200 or more).
    pub fn last_note_and_trailer(&mut self, clans: usize, bytes: usize) -> Result<()> {
        let random = &mut Random::of_record(self.seed, 7, 0);
        let start = format!("0 @N{}@ SNOTE Collected remarks\n", clans * NOTES_PER_CLAN + 1);
        self.out.write_all(start.as_bytes())?;
        let mut left = bytes - start.len() - TRAILER.len();
        while left > 0 {
            let remark = paragraph(random, 1);
            let room = left - "1 CONT \n".len();
            if !remark.is_ascii() {
                continue;
            }
            // Room that is too small for one more line is filled with dots, or the remark is cut short.
            let length = if room < remark.len() + 20 { room } else { remark.len() };
            let remark = &remark[..length.min(remark.len())];
            writeln!(self.out, "1 CONT {remark:.<length$}")?;
            left = room - length;
        }
        self.out.write_all(TRAILER.as_bytes())
    }
}
