//! The persons and families of an ordinary file: who is related to whom.

use crate::random::Random;
use crate::words;

/// A person: what the records of the person and of its families must agree on.
pub struct Person {
    pub clan: usize,
    pub female: bool,
    pub given: &'static str,
    pub surname: &'static str,
    pub born: usize,
    pub child_of: Option<usize>,
    pub spouse_in: Vec<usize>,
}

/// A family. Persons are told by their place, counted from 0.
pub struct Family {
    pub clan: usize,
    pub husband: usize,
    pub wife: usize,
    pub married: usize,
    pub children: Vec<usize>,
}

/// The persons and families of a file. It grows by whole clans, and no record of a clan names a later one.
pub struct World {
    seed: u64,
    pub persons: Vec<Person>,
    pub families: Vec<Family>,
    pub clans: usize,
}

/// How many persons, families and clans there were at some moment.
#[derive(Clone, Copy)]
pub struct Counts {
    pub persons: usize,
    pub families: usize,
    pub clans: usize,
}

impl World {
    pub fn new(seed: u64) -> World {
        World { seed, persons: Vec::new(), families: Vec::new(), clans: 0 }
    }

    pub fn counts(&self) -> Counts {
        Counts { persons: self.persons.len(), families: self.families.len(), clans: self.clans }
    }

    /// Adds a clan: two couples and their offspring over three generations.
    pub fn add_clan(&mut self) {
        let random = &mut Random::of_record(self.seed, 1, self.clans);
        self.clans += 1;
        let year = random.between(1690, 1840);
        let mut couples = Vec::new();
        for _ in 0..2 {
            let husband = self.add_person(random, false, year, None);
            couples.push((husband, self.add_person(random, true, year + 2, None)));
        }
        for generation in 0..4 {
            let mut born = Vec::new();
            for (husband, wife) in couples {
                let most = if generation < 3 { 6 } else { 0 };
                self.add_family(random, husband, wife, most, &mut born);
            }
            couples = self.marry(random, &born);
        }
    }

    /// Takes back what was added since these were the counts.
    pub fn drop_clan(&mut self, before: Counts) {
        self.persons.truncate(before.persons);
        self.families.truncate(before.families);
        self.clans = before.clans;
    }

    fn add_person(&mut self, random: &mut Random, female: bool, born: usize, child_of: Option<usize>) -> usize {
        let given = random.pick(words::given(female));
        let surname = match child_of {
            Some(family) => self.persons[self.families[family].husband].surname,
            None => random.pick(words::SURNAMES),
        };
        let clan = self.clans - 1;
        self.persons.push(Person { clan, female, given, surname, born, child_of, spouse_in: Vec::new() });
        self.persons.len() - 1
    }

    fn add_family(&mut self, random: &mut Random, husband: usize, wife: usize, most: usize, born: &mut Vec<usize>) {
        let family = self.families.len();
        let mut year = self.persons[husband].born.max(self.persons[wife].born) + random.between(18, 32);
        self.families.push(Family { clan: self.clans - 1, husband, wife, married: year, children: Vec::new() });
        self.persons[husband].spouse_in.push(family);
        self.persons[wife].spouse_in.push(family);
        for _ in 0..random.between(0, most) {
            year += random.between(1, 3);
            let female = random.chance(49);
            let child = self.add_person(random, female, year, Some(family));
            self.families[family].children.push(child);
            born.push(child);
        }
    }

    /// Couples of some of these persons, each with one who marries into the clan, at times twice.
    fn marry(&mut self, random: &mut Random, born: &[usize]) -> Vec<(usize, usize)> {
        let mut couples = Vec::new();
        for &person in born.iter().take(5) {
            for _ in 0..[0, 1, 1, 1, 1, 1, 1, 2][random.below(8)] {
                let (female, year) = (self.persons[person].female, self.persons[person].born + random.below(4));
                let spouse = self.add_person(random, !female, year, None);
                couples.push(if female { (spouse, person) } else { (person, spouse) });
            }
        }
        couples
    }
}
