//! A capture played to a listener: every packet in it for the listener is a segment call.

use std::fs::File;
use std::io::{self, BufRead, BufReader, Read, Write};

use crate::listener::{Listener, Reply};
use crate::packet::{self, Carried};
use crate::pcap::{Record, Walk, Writer};
use crate::script::{self, ListenerSession};
use crate::wire::Refusal;

/// How many bytes of output each segment call is lent.
pub const LENT: usize = 64;

/// What came of a record that was fed.
pub struct Fed<'a> {
    pub carried: Carried<'a>,
    pub reply: Result<Reply, Refusal>,
}

/// Feeds a record, the `place`th of its file from 0, to a listener; `None` where it is skipped,
/// as all are by a listener that was never started and so has no address.
pub fn feed<'a>(listener: &mut Listener, place: u64, record: &Record<'a>, out: &mut [u8]) -> Option<Fed<'a>> {
    let carried = packet::carried_to(listener.front()?.own(), record.bytes)?;
    let reply = listener.segment(record.time(), carried.source, place as u32, carried.tcp, out);
    Some(Fed { carried, reply })
}

/// A capture on its way through a listener.
pub struct Player {
    pub session: ListenerSession,
    /// What goes to OUT.
    pub sent: Writer,
    records: u64,
    fed: u64,
}

impl Player {
    pub fn new(session: ListenerSession) -> Player {
        Player { session, sent: Writer::new(), records: 0, fed: 0 }
    }

    /// Plays a record and gives its line.
    fn record(&mut self, record: &Record) -> String {
        let (place, time) = (self.records, record.time());
        self.records += 1;
        let mut out = script::filled(LENT);
        let Some(fed) = feed(&mut self.session.listener, place, record, &mut out) else {
            let number = self.session.listener.front().map_or(Refusal::NeverStarted.number(), |_| 0);
            return format!("{place} {time} skipped {number}");
        };
        self.fed += 1;
        self.send(record, &fed, &out);
        format!("{place} {time} {}", self.session.segment_line(fed.reply, fed.carried.tcp, &out))
    }

    /// The packet as it came, and behind it the answer's, if there is one.
    fn send(&mut self, record: &Record, fed: &Fed, out: &[u8]) {
        let written = fed.reply.map_or(0, |reply| reply.written);
        self.sent.add(record).expect("it was read, so it is not too long");
        if written > 0 {
            let Carried { source, destination, .. } = fed.carried;
            let answer =
                packet::carry(&Carried { source: destination, destination: source, tcp: &out[..written] });
            let answer = Record { original: answer.len() as u32, bytes: &answer, ..*record };
            self.sent.add(&answer).expect("answers are short");
        }
    }

    /// Plays a whole capture.
    pub fn play(&mut self, file: &[u8], output: &mut impl Write) -> io::Result<()> {
        let mut end = 0;
        for next in Walk::new(file) {
            match next {
                Ok(record) => writeln!(output, "{}", self.record(&record))?,
                Err(refusal) => end = refusal.number(),
            }
        }
        let Player { records, fed, .. } = self;
        writeln!(output, "end {end} {records} {fed} {}", *records - *fed)
    }
}

/// An error with the name of its file.
pub fn named(name: &str) -> impl Fn(io::Error) -> io::Error + '_ {
    move |e| io::Error::new(e.kind(), format!("{name}: {e}"))
}

/// A capture that is open; `-` is standard input.
pub struct Source<'a> {
    name: &'a str,
    opened: Option<File>,
}

impl<'a> Source<'a> {
    pub fn open(name: &'a str) -> io::Result<Source<'a>> {
        let opened = match name {
            "-" => None,
            name => Some(File::open(name).map_err(named(name))?),
        };
        Ok(Source { name, opened })
    }

    /// The whole file, or all of `input` where that is the capture.
    pub fn read(self, input: &mut impl Read) -> io::Result<Vec<u8>> {
        let mut file = Vec::new();
        match self.opened {
            Some(mut opened) => opened.read_to_end(&mut file).map_err(named(self.name))?,
            None => input.read_to_end(&mut file)?,
        };
        Ok(file)
    }
}

/// Plays SETUP, then the capture, of which `-` is `input`. Every file is opened before anything
/// is printed.
pub fn run(
    [setup, capture]: [&str; 2],
    out: Option<&str>,
    mut input: impl BufRead,
    output: impl Write,
) -> io::Result<()> {
    let setup = BufReader::new(File::open(setup).map_err(named(setup))?);
    let capture = Source::open(capture)?;
    let out = out.map(|name| File::create(name).map_err(named(name))).transpose()?;

    let mut output = io::BufWriter::new(output);
    let mut session = ListenerSession::new();
    script::run(&mut session, setup, &mut output)?;
    let file = capture.read(&mut input)?;
    let mut player = Player::new(session);
    player.play(&file, &mut output)?;
    output.flush()?;
    out.map_or(Ok(()), |mut out| out.write_all(&player.sent.file))
}
