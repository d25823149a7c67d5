//! Counts what came up in comparisons of captures.

use std::collections::BTreeMap;
use std::io::{self, BufRead};

use crate::compare::UNPAIRED;

#[derive(Default)]
pub struct Comparisons {
    /// By the number that they begin with.
    pub numbers: BTreeMap<u8, usize>,
    /// Those that list nothing and leave nothing.
    pub alike: usize,
    /// Those that leave entries unlisted.
    pub with_rest: usize,
    pub ends: BTreeMap<u8, usize>,
    /// Pairs of records, and records without a partner, listed or not.
    pub equal: u64,
    pub differing: u64,
    pub unpaired: u64,
    /// Listed pairs: those where an answer is empty or differs in its first byte, those whose
    /// answers differ later, and those with the same answer, which isn't empty.
    pub at_once: u64,
    pub later: u64,
    pub same_answer: u64,
    /// Listed records without a partner.
    pub left_over: u64,
    pub not_listed: u64,
    /// Lines that don't belong where they are.
    pub strange: usize,
    /// The one that is being read.
    present: Present,
}

/// A comparison of which some lines have been read.
#[derive(Default)]
struct Present {
    entries: Vec<(u64, u64)>,
    rest: Option<u64>,
    first: Option<u64>,
}

impl Comparisons {
    pub fn read(input: impl BufRead) -> io::Result<Comparisons> {
        let mut comparisons = Comparisons::default();
        for line in input.lines() {
            comparisons.add(&line?);
        }
        Ok(comparisons)
    }

    pub fn add(&mut self, line: &str) {
        let words: Vec<&str> = line.split(' ').collect();
        self.strange += usize::from(self.add_words(&words).is_none());
    }

    /// `None` if such a line can't be here.
    fn add_words(&mut self, words: &[&str]) -> Option<()> {
        let number = |word: &str| word.parse::<u64>().ok();
        match *words {
            ["rest", rest] => self.present.rest = Some(number(rest)?),
            ["first", fed, end] => {
                self.present.first = Some(number(fed)?);
                self.end(end)?;
            }
            ["second", fed, end] => {
                self.end(end)?;
                return self.finish(number(fed)?);
            }
            [k, place] => self.present.entries.push((number(k)?, number(place)?)),
            [first] => {
                *self.numbers.entry(first.parse().ok()?).or_default() += 1;
                self.present = Present::default();
            }
            _ => return None,
        }
        Some(())
    }

    fn end(&mut self, end: &str) -> Option<()> {
        *self.ends.entry(end.parse().ok()?).or_default() += 1;
        Some(())
    }

    /// The last line of a comparison has come, with how many records the second capture fed.
    fn finish(&mut self, second: u64) -> Option<()> {
        let Present { entries, rest, first } = std::mem::take(&mut self.present);
        let (rest, first) = (rest?, first?);
        let (pairs, unpaired) = (first.min(second), first.abs_diff(second));
        let differing = (entries.len() as u64 + rest).checked_sub(unpaired)?;
        self.equal += pairs.checked_sub(differing)?;
        self.differing += differing;
        self.unpaired += unpaired;
        self.not_listed += rest;
        self.with_rest += usize::from(rest > 0);
        self.alike += usize::from(entries.is_empty() && rest == 0);
        for &(_, place) in &entries {
            match place {
                0 => self.at_once += 1,
                24 | 36 => self.same_answer += 1,
                UNPAIRED => self.left_over += 1,
                _ => self.later += 1,
            }
        }
        let in_order = entries.windows(2).all(|two| two[0].0 < two[1].0);
        let paired = entries.iter().all(|&(k, place)| (k >= pairs) == (place == UNPAIRED));
        (in_order && paired).then_some(())
    }

    pub fn print(&self) {
        for (number, count) in &self.numbers {
            println!("number {number:<13} {count:>8}");
        }
        for (number, count) in &self.ends {
            println!("end {number:<16} {count:>8}");
        }
        for (what, count) in [
            ("alike", self.alike as u64),
            ("with a rest", self.with_rest as u64),
            ("equal pairs", self.equal),
            ("differing pairs", self.differing),
            ("unpaired records", self.unpaired),
            ("listed at 0", self.at_once),
            ("listed inside", self.later),
            ("listed, same answer", self.same_answer),
            ("listed, unpaired", self.left_over),
            ("not listed", self.not_listed),
            ("not understood", self.strange as u64),
        ] {
            println!("{what:<20} {count:>8}");
        }
    }
}
