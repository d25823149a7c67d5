//! Counts what came up in the answers of a replay or of captures.

use std::collections::BTreeMap;
use std::io::{self, BufRead};

/// How many words an answer has: the listener's, the client's.
const ANSWER: usize = 12;
const CLIENT_ANSWER: usize = 8;

/// Whose answers they are.
#[derive(Clone, Copy, PartialEq, Eq)]
pub enum Side {
    Listener,
    Client,
    Capture,
}

impl Side {
    pub fn of(name: &str) -> Option<Side> {
        match name {
            "listener" => Some(Side::Listener),
            "client" => Some(Side::Client),
            "capture" => Some(Side::Capture),
            _ => None,
        }
    }
}

#[derive(Default)]
pub struct Summary {
    pub lines: usize,
    pub bad_lines: usize,
    pub numbers: BTreeMap<u8, usize>,
    pub kinds: BTreeMap<String, usize>,
    pub verdicts: BTreeMap<String, usize>,
    /// Answers that wrote a segment.
    pub with_output: usize,
    /// Answers that accepted, sent or acknowledged at least one byte.
    pub with_count: usize,
    /// Answers that tell of skipped Fast Open options, of one used, of a reading that broke off.
    pub skipped: usize,
    pub used: usize,
    pub broken: usize,
    pub changed: usize,
    pub most_pending: usize,
    /// Of captures: SETUP's answers, which are counted here alone; skipped records by their
    /// number; how the walks ended.
    pub of_setup: usize,
    pub skipped_records: BTreeMap<u8, usize>,
    pub ends: BTreeMap<u8, usize>,
    /// Lines that aren't answers.
    pub strange: usize,
}

impl Summary {
    pub fn read(input: impl BufRead, side: Side) -> io::Result<Summary> {
        let mut summary = Summary::default();
        for line in input.split(b'\n') {
            let line = line?;
            summary.add(&String::from_utf8_lossy(&line), side);
        }
        Ok(summary)
    }

    pub fn add(&mut self, line: &str, side: Side) {
        self.lines += 1;
        if line == "bad line" {
            self.bad_lines += 1;
            return;
        }
        let words: Vec<&str> = line.split(' ').collect();
        let known = match side {
            Side::Listener => self.add_answer(&words, true),
            Side::Client => self.add_answer(&words, false),
            Side::Capture => self.add_record(&words),
        };
        self.strange += usize::from(known.is_none());
    }

    /// A line of a capture's run; `None` if it is none.
    fn add_record(&mut self, words: &[&str]) -> Option<()> {
        match *words {
            ["end", number, records, fed, skipped] => {
                let [records, fed, skipped] = [records, fed, skipped].map(|word| word.parse::<u64>().ok());
                (records? == fed? + skipped?).then_some(())?;
                *self.ends.entry(number.parse().ok()?).or_default() += 1;
            }
            [_, _, "skipped", number] => {
                *self.skipped_records.entry(number.parse().ok()?).or_default() += 1;
            }
            [_, _, ref answer @ ..] if answer.len() == ANSWER => self.add_answer(answer, true)?,
            _ if words.len() == ANSWER => self.of_setup += 1,
            _ => return None,
        }
        Some(())
    }

    /// An answer's line; `None` if it is none.
    fn add_answer(&mut self, words: &[&str], listener: bool) -> Option<()> {
        let shape = if listener { ANSWER } else { CLIENT_ANSWER };
        let number = words[0].parse().ok().filter(|_| words.len() == shape)?;
        *self.numbers.entry(number).or_default() += 1;
        let last = &words[shape - 4..];
        self.changed += usize::from(last[0] != "kept");
        self.skipped += usize::from(last[1] != "0");
        self.used += usize::from(last[2] != "0");
        self.broken += usize::from(last[3] != "0");
        let (count, written) = if listener { (words[3], words[4]) } else { (words[1], words[2]) };
        self.with_count += usize::from(count != "0");
        self.with_output += usize::from(written != "0");
        if listener {
            *self.kinds.entry(words[1].to_string()).or_default() += 1;
            *self.verdicts.entry(words[2].to_string()).or_default() += 1;
            self.most_pending = self.most_pending.max(words[5].parse().unwrap_or(0));
        }
        Some(())
    }

    pub fn print(&self, side: Side) {
        for (number, count) in &self.numbers {
            println!("number {number:<10} {count:>8}");
        }
        for (kind, count) in &self.kinds {
            println!("kind {kind:<12} {count:>8}");
        }
        for (verdict, count) in &self.verdicts {
            println!("verdict {verdict:<9} {count:>8}");
        }
        for (number, count) in &self.skipped_records {
            println!("skipped record {number:<2} {count:>8}");
        }
        for (number, count) in &self.ends {
            println!("end {number:<13} {count:>8}");
        }
        println!("with output       {:>8}", self.with_output);
        println!("with count        {:>8}", self.with_count);
        println!("with skipped      {:>8}", self.skipped);
        println!("with used         {:>8}", self.used);
        println!("broken off        {:>8}", self.broken);
        if side != Side::Client {
            println!("most pending      {:>8}", self.most_pending);
        }
        println!("rest changed      {:>8}", self.changed);
        if side == Side::Capture {
            println!("of the set-up     {:>8}", self.of_setup);
        }
        println!("bad lines         {:>8}", self.bad_lines);
        println!("not understood    {:>8}", self.strange);
        println!("lines             {:>8}", self.lines);
    }
}
