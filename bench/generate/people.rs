//! How the records of persons and families are spelled.

use crate::prose::exact_date;
use crate::random::Random;
use crate::records::Records;
use crate::words;
use crate::world::{Family, Person};
use std::io::{Result, Write};

impl<W: Write> Records<'_, W> {
    pub fn person(&mut self, index: usize) -> Result<()> {
        let random = &mut Random::of_record(self.seed, 2, index);
        let world = self.world;
        let person = &world.persons[index];
        let number = index + 1;
        writeln!(self.out, "0 @I{number}@ INDI")?;
        self.names(random, person)?;
        writeln!(self.out, "1 SEX {}", if person.female { "F" } else { "M" })?;
        self.life(random, person)?;
        self.links(random, person)?;
        if random.chance(4) {
            writeln!(self.out, "1 ASSO @I{}@", random.between(1, number))?;
            writeln!(self.out, "2 ROLE {}", random.pick(words::ROLES))?;
        }
        if random.chance(10) {
            writeln!(self.out, "1 REFN {number}-{}", random.below(1000))?;
            writeln!(self.out, "2 TYPE card index")?;
        }
        if random.chance(5) {
            writeln!(self.out, "1 _UPD {}", exact_date(random, 2023))?;
        }
        self.ending(random, person.clan)
    }

    fn names(&mut self, random: &mut Random, person: &Person) -> Result<()> {
        let Person { given, surname, .. } = person;
        writeln!(self.out, "1 NAME {given} /{surname}/")?;
        writeln!(self.out, "2 GIVN {given}")?;
        writeln!(self.out, "2 SURN {surname}")?;
        if random.chance(4) {
            writeln!(self.out, "2 NICK {}", random.pick(words::given(person.female)))?;
        }
        if random.chance(15) {
            self.citation(random, 2, person.clan)?;
        }
        if let (true, Some(&family)) = (person.female && random.chance(12), person.spouse_in.first()) {
            let husband = &self.world.persons[self.world.families[family].husband];
            writeln!(self.out, "1 NAME {given} /{}/", husband.surname)?;
            writeln!(self.out, "2 TYPE MARRIED")?;
        }
        Ok(())
    }

    /// The events and facts of a person.
    fn life(&mut self, random: &mut Random, person: &Person) -> Result<()> {
        let (clan, born) = (person.clan, person.born);
        let age = random.between(if person.spouse_in.is_empty() { 1 } else { 50 }, 92);
        writeln!(self.out, "1 BIRT")?;
        self.detail(random, clan, born)?;
        if random.chance(25) {
            writeln!(self.out, "1 CHR")?;
            self.detail(random, clan, born)?;
        }
        if age > 16 && random.chance(40) {
            writeln!(self.out, "1 OCCU {}", random.pick(words::TRADES))?;
            self.detail(random, clan, born + 25)?;
        }
        if age > 16 && random.chance(30) {
            writeln!(self.out, "1 RESI Lived near {}", random.pick(words::PLACES))?;
            self.detail(random, clan, born + 30)?;
        }
        if random.chance(10) {
            writeln!(self.out, "1 RELI {}", random.pick(words::FAITHS))?;
            self.detail(random, clan, born + 15)?;
        }
        if random.chance(12) {
            writeln!(self.out, "1 CENS")?;
            self.detail(random, clan, born / 10 * 10 + 20)?;
        }
        self.death(random, person, age)
    }

    fn death(&mut self, random: &mut Random, person: &Person, age: usize) -> Result<()> {
        let (clan, year) = (person.clan, person.born + age);
        match random.below(20) {
            0 => return Ok(()),
            1 => return writeln!(self.out, "1 DEAT Y"),
            _ => writeln!(self.out, "1 DEAT")?,
        }
        self.detail(random, clan, year)?;
        if random.chance(25) {
            writeln!(self.out, "2 AGE {age}y")?;
        }
        if random.chance(15) {
            writeln!(self.out, "2 CAUS {}", random.pick(words::CAUSES))?;
        }
        if random.chance(30) {
            writeln!(self.out, "1 BURI")?;
            self.detail(random, clan, year)?;
        }
        Ok(())
    }

    /// The links to the families.
    fn links(&mut self, random: &mut Random, person: &Person) -> Result<()> {
        if let Some(family) = person.child_of {
            writeln!(self.out, "1 FAMC @F{}@", family + 1)?;
            if random.chance(8) {
                writeln!(self.out, "2 PEDI BIRTH")?;
            }
        }
        for family in &person.spouse_in {
            writeln!(self.out, "1 FAMS @F{}@", family + 1)?;
        }
        Ok(())
    }

    pub fn family(&mut self, index: usize) -> Result<()> {
        let random = &mut Random::of_record(self.seed, 3, index);
        let Family { clan, husband, wife, married, children } = &self.world.families[index];
        writeln!(self.out, "0 @F{}@ FAM", index + 1)?;
        writeln!(self.out, "1 HUSB @I{}@", husband + 1)?;
        writeln!(self.out, "1 WIFE @I{}@", wife + 1)?;
        for child in children {
            writeln!(self.out, "1 CHIL @I{}@", child + 1)?;
        }
        writeln!(self.out, "1 MARR")?;
        self.detail(random, *clan, *married)?;
        if random.chance(15) {
            let age = married - self.world.persons[*husband].born;
            writeln!(self.out, "2 HUSB\n3 AGE {age}y {}m", random.below(12))?;
        }
        if random.chance(3) {
            writeln!(self.out, "1 DIV")?;
            self.detail(random, *clan, married + 9)?;
        }
        if random.chance(10) {
            writeln!(self.out, "1 NCHI {}", children.len())?;
        }
        self.ending(random, *clan)
    }
}
