//! Two captures judged side by side, each by a listener of its own.

use std::fmt;
use std::fs::File;
use std::io::{self, Read, Write};

use crate::capture::{feed, named, Fed, Source, LENT};
use crate::listener::{accepted_part, Kind, Listener, Settings};
use crate::pcap::Walk;
use crate::script::{self, Start};
use crate::wire::Refusal;

/// The most entries that a list has room for, and how many it has where that isn't said.
pub const MOST_ENTRIES: u64 = 4096;

/// The place of a record that has no partner.
pub const UNPAIRED: u64 = u64::MAX;

/// How many entries are to be listed, if that is a number that they can be.
pub fn room(word: &str) -> Option<u64> {
    script::decimal(word.as_bytes(), MOST_ENTRIES)
}

/// The two calls that both listeners get.
#[derive(Debug, PartialEq, Eq)]
pub struct Setup {
    start: Start,
    settings: Settings,
}

/// Why a SETUP can't be used: a line, with its number from 1, or its early end.
#[derive(Debug, PartialEq, Eq)]
pub enum Unusable<'a> {
    Line(usize, &'a [u8]),
    End,
}

impl fmt::Display for Unusable<'_> {
    fn fmt(&self, f: &mut fmt::Formatter) -> fmt::Result {
        match self {
            Unusable::Line(number, text) => write!(f, "line {number}: {}", String::from_utf8_lossy(text)),
            Unusable::End => write!(f, "there must be a start line and then a settings line at time 0"),
        }
    }
}

impl Setup {
    /// One `start` line and then one `settings` line at time 0, whether or not the calls are
    /// refused, beside lines that say nothing.
    pub fn read(text: &[u8]) -> Result<Setup, Unusable<'_>> {
        let lines = (1..).zip(text.split(|&byte| byte == b'\n'));
        let mut lines = lines.filter(|(_, line)| !script::is_silent(line));
        let (number, line) = lines.next().ok_or(Unusable::End)?;
        let start = Start::of_line(line).ok_or(Unusable::Line(number, line))?;
        let (number, line) = lines.next().ok_or(Unusable::End)?;
        let (time, settings) = script::settings_of_line(line).ok_or(Unusable::Line(number, line))?;
        if time != 0 {
            return Err(Unusable::Line(number, line));
        }
        match lines.next() {
            Some((number, line)) => Err(Unusable::Line(number, line)),
            None => Ok(Setup { start, settings }),
        }
    }

    /// A fresh listener after the two calls, or the first refusal.
    pub fn listener(&self) -> Result<Listener, Refusal> {
        let mut listener = self.start.call()?;
        listener.settings(0, self.settings)?;
        Ok(listener)
    }
}

/// What a site makes of a fed record. Two sites differ where these do: in the number, where both
/// are done in kind or verdict, in the accepted part or in the answer. A refused call has neither
/// part nor answer, so two equal refusals are the same.
#[derive(Clone, Debug, PartialEq, Eq)]
pub struct Judged {
    /// The kind has the verdict in it.
    pub said: Result<Kind, Refusal>,
    /// The accepted part is the accepted bytes (01: "that many bytes from the payload's start";
    /// the replay prints it as bytes), so where in the segment they lay is no difference.
    pub part: Vec<u8>,
    pub answer: Vec<u8>,
}

impl Judged {
    fn of(fed: &Fed, out: &[u8]) -> Judged {
        let (accepted, written) = fed.reply.map_or((0, 0), |reply| (reply.accepted, reply.written));
        Judged {
            said: fed.reply.map(|reply| reply.kind),
            part: accepted_part(fed.carried.tcp, accepted).to_vec(),
            answer: out[..written].to_vec(),
        }
    }

    /// The first place where the answers differ, or the shorter one's length.
    fn place(&self, other: &Judged) -> u64 {
        self.answer.iter().zip(&other.answer).take_while(|(one, other)| one == other).count() as u64
    }
}

/// A capture as its listener judged it.
#[derive(Debug, PartialEq, Eq)]
pub struct Site {
    /// Of the fed records, in their order.
    pub judged: Vec<Judged>,
    /// The number that the walk ended with.
    pub end: u8,
}

impl Site {
    pub fn judge(mut listener: Listener, file: &[u8]) -> Site {
        let mut site = Site { judged: Vec::new(), end: 0 };
        for (place, next) in (0..).zip(Walk::new(file)) {
            match next {
                Ok(record) => {
                    let mut out = script::filled(LENT);
                    let fed = feed(&mut listener, place, &record, &mut out);
                    site.judged.extend(fed.map(|fed| Judged::of(&fed, &out)));
                }
                Err(refusal) => site.end = refusal.number(),
            }
        }
        site
    }
}

/// Which pair differs, or which record is left over, and where.
#[derive(Clone, Copy, Debug, PartialEq, Eq)]
pub struct Entry {
    pub k: u64,
    pub place: u64,
}

/// The whole list: pairs that differ, then the rest of the longer side.
pub fn entries(first: &[Judged], second: &[Judged]) -> Vec<Entry> {
    let pairs = (0..).zip(first.iter().zip(second));
    let differing = pairs.filter(|(_, (one, other))| one != other);
    let listed = differing.map(|(k, (one, other))| Entry { k, place: one.place(other) });
    let (shorter, longer) = (first.len().min(second.len()), first.len().max(second.len()));
    let unpaired = (shorter..longer).map(|k| Entry { k: k as u64, place: UNPAIRED });
    listed.chain(unpaired).collect()
}

/// Prints the first refusal of SETUP's calls, or how two captures compare, with at most `room`
/// entries.
pub fn compare(setup: &Setup, files: [&[u8]; 2], room: u64, output: &mut impl Write) -> io::Result<()> {
    let judged = |file| Ok(Site::judge(setup.listener()?, file));
    let [first, second]: [Result<Site, Refusal>; 2] = files.map(judged);
    let (first, second) = match (first, second) {
        (Ok(first), Ok(second)) => (first, second),
        (Err(refusal), _) | (_, Err(refusal)) => return writeln!(output, "{}", refusal.number()),
    };
    let entries = entries(&first.judged, &second.judged);
    let listed = entries.len().min(room as usize);
    writeln!(output, "0")?;
    for Entry { k, place } in &entries[..listed] {
        writeln!(output, "{k} {place}")?;
    }
    writeln!(output, "rest {}", entries.len() - listed)?;
    writeln!(output, "first {} {}", first.judged.len(), first.end)?;
    writeln!(output, "second {} {}", second.judged.len(), second.end)
}

/// Compares two captures, of which one may be `-`, which is `input`. Nothing is printed where
/// something can't be opened, or SETUP can't be used.
pub fn run(
    [setup, first, second]: [&str; 3],
    room: u64,
    mut input: impl Read,
    output: impl Write,
) -> io::Result<()> {
    let mut text = Vec::new();
    let mut opened = File::open(setup).map_err(named(setup))?;
    let (first, second) = (Source::open(first)?, Source::open(second)?);
    opened.read_to_end(&mut text).map_err(named(setup))?;
    let unusable = |why: Unusable| io::Error::new(io::ErrorKind::InvalidData, why.to_string());
    let setup = Setup::read(&text).map_err(|why| named(setup)(unusable(why)))?;

    let (first, second) = (first.read(&mut input)?, second.read(&mut input)?);
    let mut output = io::BufWriter::new(output);
    compare(&setup, [&first, &second], room, &mut output)?;
    output.flush()
}
