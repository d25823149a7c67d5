//! The line language of the replays: reading calls, running them, printing answers.

use std::fmt::Write as _;
use std::io::{self, BufRead, Write};

use crate::client::{Attempt, Client, Learnt, Opened};
use crate::listener::{accepted_part, Kind, Listener, Reply, Settings, Verdict, WHOLE_SHARE};
use crate::wire::{Codings, Reading, Refusal};

pub const LONGEST_LINE: usize = 8192;
pub const MOST_OUTPUT: u64 = 2048;
const FILLER: u8 = 0xa5;
const BAD_LINE: &str = "bad line";

/// Output to be lent.
pub fn filled(length: usize) -> Vec<u8> {
    vec![FILLER; length]
}

/// A replay: takes lines without their line feed, gives the line to print, if any.
pub trait Session {
    /// Runs a call line; `None` if it isn't one.
    fn call(&mut self, words: Words) -> Option<String>;

    fn line(&mut self, line: &[u8]) -> Option<String> {
        if is_silent(line) {
            return None;
        }
        let answer = Words::of(line).and_then(|words| self.call(words));
        Some(answer.unwrap_or_else(|| BAD_LINE.to_string()))
    }
}

/// Whether a line is empty or a comment, of any length.
pub fn is_silent(line: &[u8]) -> bool {
    line.is_empty() || line[0] == b'#'
}

/// Runs a whole input. Each answer is flushed at once, so that a pipe can drive the run.
pub fn run(session: &mut dyn Session, mut input: impl BufRead, mut output: impl Write) -> io::Result<()> {
    let mut line = Vec::new();
    while read_line(&mut input, &mut line)? {
        if let Some(mut answer) = session.line(&line) {
            answer.push('\n');
            output.write_all(answer.as_bytes())?;
            output.flush()?;
        }
    }
    Ok(())
}

/// Reads up to a line feed or the end; false if there is nothing left. Of an overlong line
/// only so much is kept that it is still seen to be overlong.
fn read_line(input: &mut impl BufRead, line: &mut Vec<u8>) -> io::Result<bool> {
    line.clear();
    let mut any = false;
    loop {
        let buffer = match input.fill_buf() {
            Ok(buffer) => buffer,
            Err(e) if e.kind() == io::ErrorKind::Interrupted => continue,
            Err(e) => return Err(e),
        };
        if buffer.is_empty() {
            return Ok(any);
        }
        any = true;
        let end = buffer.iter().position(|&b| b == b'\n');
        let part = &buffer[..end.unwrap_or(buffer.len())];
        let kept = part.len().min(LONGEST_LINE + 1 - line.len());
        line.extend_from_slice(&part[..kept]);
        let used = part.len() + usize::from(end.is_some());
        input.consume(used);
        if end.is_some() {
            return Ok(true);
        }
    }
}

/// The words of a line, each to be taken as what the call wants there.
pub struct Words<'a> {
    words: Vec<&'a [u8]>,
    next: usize,
}

impl<'a> Words<'a> {
    /// None of a line that is too long.
    fn of(line: &'a [u8]) -> Option<Words<'a>> {
        let words = || Words { words: line.split(|&b| b == b' ').collect(), next: 0 };
        (line.len() <= LONGEST_LINE).then(words)
    }

    fn word(&mut self) -> Option<&'a [u8]> {
        let word = *self.words.get(self.next)?;
        self.next += 1;
        Some(word)
    }

    fn number(&mut self, most: u64) -> Option<u64> {
        decimal(self.word()?, most)
    }

    fn u64(&mut self) -> Option<u64> {
        self.number(u64::MAX)
    }

    fn u32(&mut self) -> Option<u32> {
        self.number(u32::MAX.into()).map(|value| value as u32)
    }

    fn u16(&mut self) -> Option<u16> {
        self.number(u16::MAX.into()).map(|value| value as u16)
    }

    /// The lent output, filled.
    fn output(&mut self) -> Option<Vec<u8>> {
        self.number(MOST_OUTPUT).map(|length| filled(length as usize))
    }

    fn bytes(&mut self) -> Option<Vec<u8>> {
        let word = self.word()?;
        if word == b"-" {
            return Some(Vec::new());
        }
        if word.is_empty() || word.len() % 2 != 0 {
            return None;
        }
        word.chunks_exact(2).map(|pair| Some(digit(pair[0])? << 4 | digit(pair[1])?)).collect()
    }

    /// The coding setting, which a line may leave out.
    fn codings(&mut self) -> Option<Codings> {
        match self.word() {
            None | Some(b"new") => Some(Codings::New),
            Some(b"both") => Some(Codings::Both),
            Some(_) => None,
        }
    }

    /// The share, which a line may leave out; it stands only behind a coding setting.
    fn share(&mut self) -> Option<u32> {
        match self.end() {
            Some(()) => Some(WHOLE_SHARE),
            None => self.u32(),
        }
    }

    fn end(&self) -> Option<()> {
        (self.next == self.words.len()).then_some(())
    }
}

/// A number as lines have it, up to the most that its place takes.
pub fn decimal(word: &[u8], most: u64) -> Option<u64> {
    if word.is_empty() {
        return None;
    }
    let mut value = 0u64;
    for &digit in word {
        if !digit.is_ascii_digit() {
            return None;
        }
        value = value.checked_mul(10)?.checked_add(u64::from(digit - b'0'))?;
    }
    (value <= most).then_some(value)
}

fn digit(c: u8) -> Option<u8> {
    (c as char).to_digit(16).map(|value| value as u8)
}

fn hex(bytes: &[u8]) -> String {
    if bytes.is_empty() {
        return "-".to_string();
    }
    let mut text = String::with_capacity(2 * bytes.len());
    for byte in bytes {
        let _ = write!(text, "{byte:02x}");
    }
    text
}

fn rest(out: &[u8], written: usize) -> &'static str {
    if out[written..].iter().all(|&byte| byte == FILLER) {
        "kept"
    } else {
        "changed"
    }
}

/// The words that end every answer.
fn told(reading: Reading) -> String {
    format!("{} {} {}", reading.skipped, reading.used, reading.broken)
}

fn number<T>(result: &Result<T, Refusal>) -> u8 {
    result.as_ref().map_or_else(|refusal| refusal.number(), |_| 0)
}

/// What a start call is made with.
#[derive(Debug, PartialEq, Eq)]
pub struct Start {
    pub own: Vec<u8>,
    pub port: u16,
    pub key: Vec<u8>,
}

impl Start {
    fn of(words: &mut Words) -> Option<Start> {
        let start = Start { own: words.bytes()?, port: words.u16()?, key: words.bytes()? };
        words.end().map(|()| start)
    }

    /// Of a whole line; `None` if it isn't a start's.
    pub fn of_line(line: &[u8]) -> Option<Start> {
        let mut words = Words::of(line)?;
        (words.word()? == b"start").then(|| Start::of(&mut words))?
    }

    pub fn call(&self) -> Result<Listener, Refusal> {
        Listener::start(&self.own, self.port, &self.key)
    }
}

/// What a settings call is made with, its time first.
fn settings_of(words: &mut Words) -> Option<(u64, Settings)> {
    let time = words.u64()?;
    let on = match words.word()? {
        b"on" => true,
        b"off" => false,
        _ => return None,
    };
    let (limit, room) = (words.u32()?, words.u32()?);
    let (hold, mss) = (words.u32()?, words.u32()?);
    let (codings, share) = (words.codings()?, words.share()?);
    words.end()?;
    Some((time, Settings { on, limit, room, hold, mss, codings, share }))
}

/// Of a whole line; `None` if it isn't a settings call's.
pub fn settings_of_line(line: &[u8]) -> Option<(u64, Settings)> {
    let mut words = Words::of(line)?;
    (words.word()? == b"settings").then(|| settings_of(&mut words))?
}

/// What a done call of the listener says; a refused one says nothing.
struct ListenerDone<'a> {
    kind: &'static str,
    verdict: &'static str,
    accepted: usize,
    written: usize,
    part: &'a [u8],
    reading: Reading,
}

impl Default for ListenerDone<'_> {
    fn default() -> Self {
        let reading = Reading::default();
        ListenerDone { kind: "-", verdict: "-", accepted: 0, written: 0, part: &[], reading }
    }
}

impl<'a> ListenerDone<'a> {
    fn segment(reply: Reply, segment: &'a [u8]) -> ListenerDone<'a> {
        let (kind, verdict) = match reply.kind {
            Kind::Opening(Verdict::Early) => ("opening", "early"),
            Kind::Opening(Verdict::Plain) => ("opening", "plain"),
            Kind::Opening(Verdict::Repeat) => ("opening", "repeat"),
            Kind::Reset => ("reset", "-"),
            Kind::Completion => ("completion", "-"),
        };
        let Reply { accepted, written, reading, .. } = reply;
        ListenerDone { kind, verdict, accepted, written, part: accepted_part(segment, accepted), reading }
    }
}

pub struct ListenerSession {
    pub listener: Listener,
}

impl ListenerSession {
    pub fn new() -> ListenerSession {
        ListenerSession { listener: Listener::never_started() }
    }

    fn answer(&self, result: Result<ListenerDone, Refusal>, out: &[u8]) -> String {
        let number = number(&result);
        let done = result.unwrap_or_default();
        format!(
            "{number} {} {} {} {} {} {} {} {} {}",
            done.kind,
            done.verdict,
            done.accepted,
            done.written,
            self.listener.pending(),
            hex(&out[..done.written]),
            hex(done.part),
            rest(out, done.written),
            told(done.reading)
        )
    }

    /// The line for a segment call that has been made.
    pub fn segment_line(&self, reply: Result<Reply, Refusal>, segment: &[u8], out: &[u8]) -> String {
        self.answer(reply.map(|reply| ListenerDone::segment(reply, segment)), out)
    }

    /// The line for a call that is no segment.
    fn by_rote(&self, result: Result<usize, Refusal>, out: &[u8]) -> String {
        self.answer(result.map(|written| ListenerDone { written, ..ListenerDone::default() }), out)
    }
}

impl Session for ListenerSession {
    fn call(&mut self, mut words: Words) -> Option<String> {
        match words.word()? {
            b"start" => {
                let result = match Start::of(&mut words)?.call() {
                    Ok(listener) => {
                        self.listener = listener;
                        Ok(0)
                    }
                    Err(refusal) => {
                        self.listener = Listener::never_started();
                        Err(refusal)
                    }
                };
                Some(self.by_rote(result, &[]))
            }
            b"settings" => {
                let (time, settings) = settings_of(&mut words)?;
                let result = self.listener.settings(time, settings);
                Some(self.by_rote(result.map(|()| 0), &[]))
            }
            b"key" => {
                let (time, key) = (words.u64()?, words.bytes()?);
                words.end()?;
                let result = self.listener.key(time, &key);
                Some(self.by_rote(result.map(|()| 0), &[]))
            }
            b"segment" => {
                let (time, source, ours) = (words.u64()?, words.bytes()?, words.u32()?);
                let (mut out, segment) = (words.output()?, words.bytes()?);
                words.end()?;
                let reply = self.listener.segment(time, &source, ours, &segment, &mut out);
                Some(self.segment_line(reply, &segment, &out))
            }
            b"abandon" => {
                let (time, source, port) = (words.u64()?, words.bytes()?, words.u16()?);
                words.end()?;
                let result = self.listener.abandon(time, &source, port);
                Some(self.by_rote(result.map(|()| 0), &[]))
            }
            b"resend" => {
                let (time, source, port) = (words.u64()?, words.bytes()?, words.u16()?);
                let mut out = words.output()?;
                words.end()?;
                let result = self.listener.resend(time, &source, port, &mut out);
                Some(self.by_rote(result, &out))
            }
            b"close" => {
                let (time, source, port) = (words.u64()?, words.bytes()?, words.u16()?);
                words.end()?;
                let result = self.listener.close(time, &source, port);
                Some(self.by_rote(result.map(|()| 0), &[]))
            }
            _ => None,
        }
    }
}

pub struct ClientSession {
    pub client: Client,
}

impl ClientSession {
    pub fn new() -> ClientSession {
        ClientSession { client: Client::never_started() }
    }
}

/// What a done call of the client says; a refused one says nothing.
#[derive(Default)]
struct ClientDone {
    count: u32,
    written: usize,
    reading: Reading,
}

impl From<Opened> for ClientDone {
    fn from(opened: Opened) -> ClientDone {
        ClientDone { count: opened.sent as u32, written: opened.written, ..ClientDone::default() }
    }
}

impl From<Learnt> for ClientDone {
    fn from(learnt: Learnt) -> ClientDone {
        ClientDone { count: learnt.acknowledged, reading: learnt.reading, ..ClientDone::default() }
    }
}

fn client_line(result: Result<ClientDone, Refusal>, out: &[u8]) -> String {
    let number = number(&result);
    let ClientDone { count, written, reading } = result.unwrap_or_default();
    format!("{number} {count} {written} {} {} {}", hex(&out[..written]), rest(out, written), told(reading))
}

impl Session for ClientSession {
    fn call(&mut self, mut words: Words) -> Option<String> {
        match words.word()? {
            b"start" => {
                let family = words.u64()?;
                words.end()?;
                let result = match Client::start(family) {
                    Ok(client) => {
                        self.client = client;
                        Ok(ClientDone::default())
                    }
                    Err(refusal) => {
                        self.client = Client::never_started();
                        Err(refusal)
                    }
                };
                Some(client_line(result, &[]))
            }
            b"open" => {
                let time = words.u64()?;
                let (own, own_port) = (words.bytes()?, words.u16()?);
                let (server, server_port) = (words.bytes()?, words.u16()?);
                let (ours, mss) = (words.u32()?, words.u32()?);
                let (mut out, data) = (words.output()?, words.bytes()?);
                words.end()?;
                let attempt = Attempt { own: &own, own_port, server: &server, server_port, ours };
                let result = self.client.open(time, &attempt, mss, &data, &mut out);
                Some(client_line(result.map(ClientDone::from), &out))
            }
            b"answer" => {
                let time = words.u64()?;
                let (own, own_port) = (words.bytes()?, words.u16()?);
                let (server, server_port) = (words.bytes()?, words.u16()?);
                let (ours, sent, segment) = (words.u32()?, words.u32()?, words.bytes()?);
                let codings = words.codings()?;
                words.end()?;
                let attempt = Attempt { own: &own, own_port, server: &server, server_port, ours };
                let result = self.client.answer(time, &attempt, sent, &segment, codings);
                Some(client_line(result.map(ClientDone::from), &[]))
            }
            b"failed" => {
                let (time, server, port) = (words.u64()?, words.bytes()?, words.u16()?);
                words.end()?;
                let result = self.client.failed(time, &server, port);
                Some(client_line(result.map(|()| ClientDone::default()), &[]))
            }
            _ => None,
        }
    }
}
