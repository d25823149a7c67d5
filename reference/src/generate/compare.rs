//! Pairs of captures, the SETUP for both, and how many entries to list: one seed gives all.

use super::capture::{End, File, Maker};
use super::line::{self, Line};
use super::listener::{put_out_of_range, settings_line, Maker as Listening, Theme};
use super::packet::{fit, spoilt};
use super::Rng;
use crate::capture::feed;
use crate::compare::{Setup, MOST_ENTRIES};
use crate::listener::{Kind, Listener, Reply, Settings, Verdict, LEAST_OUTPUT};
use crate::packet::{carried_to, Carried};
use crate::pcap::{Order, Record, Walk, FILE_HEADER};
use crate::script::LONGEST_LINE;
use crate::wire::{self, Refusal, ACK, LONGEST_SEGMENT, NO_OPERATION, RST};

/// Numbers for one thing that a seed gives, apart from those for the others.
fn apart(seed: u64, thing: u64) -> Rng {
    Rng(Rng(seed ^ thing << 56).next())
}

/// The start, the settings at time 0, and nothing more that counts.
fn set_up(listening: &mut Listening, theme: &Theme) {
    listening.set_scene(theme);
    let settings = listening.suited(theme, false);
    let lines = [listening.start_line(), settings_line(0, &settings)];
    write(listening, &lines);
}

/// Adds lines in some spelling, with silence around them.
fn write(listening: &mut Listening, lines: &[Line]) {
    for line in lines {
        silence(listening);
        let spelt = line.spelt(&mut listening.script.rng);
        listening.script.raw(&spelt);
    }
    silence(listening);
}

fn silence(listening: &mut Listening) {
    for _ in 0..listening.script.rng.pick(&[0, 0, 0, 0, 1, 2]) {
        let silent = line::silent(&mut listening.script.rng);
        listening.script.raw(&silent);
    }
}

/// A SETUP that both captures of the seed fit, now and then one whose calls are refused.
pub fn setup(seed: u64) -> Vec<u8> {
    let mut rng = apart(seed, 1);
    let mut listening = Maker::with(seed, set_up).listening;
    if rng.percent(9) {
        let mut settings = settings_of(&listening);
        let which = rng.below(5);
        let start = if which < 3 { listening.refused_start_line() } else { listening.start_line() };
        if which > 1 {
            put_out_of_range(&mut rng, &mut settings);
        }
        listening.script.text.clear();
        write(&mut listening, &[start, settings_line(0, &settings)]);
    }
    listening.script.finish()
}

fn settings_of(listening: &Listening) -> Settings {
    let front = listening.script.session.listener.front();
    front.expect("a listener for captures is started").current_settings()
}

/// A SETUP that can't be used, mostly for one line alone.
pub fn unusable_setup(seed: u64) -> Vec<u8> {
    let mut rng = apart(seed, 2);
    let listening = Maker::with(seed, set_up).listening;
    let right = [listening.start_line(), settings_line(0, &settings_of(&listening))];
    loop {
        let mut lines: Vec<Vec<u8>> = right.iter().map(|line| line.spelt(&mut rng)).collect();
        spoil_setup(&mut rng, &right, &mut lines);
        for _ in 0..rng.below(4) {
            let at = rng.index(lines.len() + 1);
            lines.insert(at, line::silent(&mut rng));
        }
        let mut text = lines.join(&b'\n');
        if rng.percent(60) {
            text.push(b'\n');
        }
        if Setup::read(&text).is_err() {
            return text;
        }
    }
}

fn spoil_setup(rng: &mut Rng, right: &[Line; 2], lines: &mut Vec<Vec<u8>>) {
    let (one, at) = (rng.index(2), rng.index(3));
    match rng.below(10) {
        0 => lines.swap(0, 1),
        1 => _ = lines.remove(one),
        2 => lines.clear(),
        3 => lines.insert(at, lines[one].clone()),
        4 => lines.extend_from_within(..),
        5 => lines[1] = later_settings(rng, &lines[1]),
        6 => lines.insert(at, other_call(rng)),
        7 => lines[one].resize(LONGEST_LINE + rng.pick(&[1, 2, 3000]), b'0'),
        8 => lines[one].insert(0, b' '),
        _ => lines[one] = right[one].spoilt(rng),
    }
}

/// A settings line with another time.
fn later_settings(rng: &mut Rng, line: &[u8]) -> Vec<u8> {
    let any = rng.next();
    let time = rng.pick(&[1, 1, 10, 1 << 32, 1 << 48, any, u64::MAX]).to_string();
    let mut words: Vec<&[u8]> = line.split(|&byte| byte == b' ').collect();
    words[1] = time.as_bytes();
    words.join(&b' ')
}

/// A right line of another call.
fn other_call(rng: &mut Rng) -> Vec<u8> {
    let address = rng.bytes(4);
    let line = match rng.below(5) {
        0 => Line::new("key").u64(0).bytes(&[7; 16]),
        1 => Line::new("segment").u64(0).bytes(&address).u32(0).out(36).bytes(&[0; 20]),
        2 => Line::new("resend").u64(0).bytes(&address).u16(1).out(36),
        3 => Line::new("abandon").u64(0).bytes(&address).u16(1),
        _ => Line::new("close").u64(0).bytes(&address).u16(1),
    };
    line.spelt(rng)
}

/// How many entries to list, unless that is to be left out.
pub fn room(seed: u64) -> Option<String> {
    let mut rng = apart(seed, 3);
    let (few, any) = (rng.within(2, 20), rng.within(0, MOST_ENTRIES));
    let most = rng.pick(&[0, 0, 1, 1, few, few, few, 100, any, MOST_ENTRIES - 1, MOST_ENTRIES, MOST_ENTRIES]);
    match rng.below(10) {
        0..=3 => None,
        4 => Some(format!("{most:0>6}")),
        _ => Some(most.to_string()),
    }
}

/// Two captures, each of about so many records.
pub fn pair(seed: u64, records: usize) -> (Vec<u8>, Vec<u8>) {
    let mut maker = Maker::with(seed, set_up);
    let setup = Setup::read(&maker.listening.script.text).expect("it was made to be used");
    let listener = || setup.listener().expect("it was made to be done");
    maker.fill(records);
    let mut second = Second::of(&maker.file, listener(), apart(seed, 4));
    match second.rng.weighted(&[16, 52, 16, 4, 12]) {
        0 => {}
        1 => second.change(),
        2 => (0..second.rng.within(2, 6)).for_each(|_| second.change()),
        3 => second.items.clear(),
        _ => {
            // another day at the same front
            let mut other = Maker::with(seed, set_up);
            *other.rng() = apart(seed, 5);
            other.fill(records);
            second.items = Second::of(&other.file, listener(), apart(seed, 6)).items;
        }
    }
    if second.rng.percent(25) {
        second.turn_order();
    }
    let mut rng = apart(seed, 7);
    (end(&mut rng, maker.file, 15), end(&mut rng, second.file(), 30))
}

/// The file, mostly as it is.
fn end(rng: &mut Rng, mut file: File, chance: u64) -> Vec<u8> {
    if rng.percent(chance) {
        let end = End::any(rng);
        file.spoil(rng, end);
    }
    let mut bytes = file.bytes;
    if rng.percent(chance / 3) {
        let length = bytes.len();
        let any = rng.index(length + 1);
        let near = length - length.min(any % 300);
        bytes.truncate(rng.pick(&[any, any, any, near, near, any.min(30), 0]));
    }
    if rng.percent(chance / 5) && !bytes.is_empty() {
        let at = rng.index(bytes.len());
        bytes[at] ^= 1 << rng.below(8);
    }
    bytes
}

/// A record, and what the first capture's listener said to it.
#[derive(Clone)]
struct Item {
    seconds: u32,
    microseconds: u32,
    original: u32,
    bytes: Vec<u8>,
    reply: Option<Result<Reply, Refusal>>,
}

impl Item {
    fn record(&self) -> Record<'_> {
        let Item { seconds, microseconds, original, ref bytes, .. } = *self;
        Record { seconds, microseconds, original, bytes }
    }

    fn done(&self) -> Option<&Reply> {
        self.reply.as_ref()?.as_ref().ok()
    }

    fn has(&self, kind: Kind) -> bool {
        self.done().is_some_and(|reply| reply.kind == kind)
    }

    /// How many bytes were accepted early, if it was an early opening.
    fn early(&self) -> Option<usize> {
        self.done().filter(|reply| reply.kind == Kind::Opening(Verdict::Early)).map(|reply| reply.accepted)
    }

    /// Changes the segment, if there is one with a header, and makes its checksum fit.
    fn reseal(&mut self, own: &[u8], change: impl FnOnce(&mut Vec<u8>)) {
        let carried = carried_to(own, &self.bytes).filter(|carried| carried.tcp.len() >= wire::HEADER);
        let Some(Carried { source, tcp, .. }) = carried else { return };
        let mut segment = tcp.to_vec();
        change(&mut segment);
        segment[16..18].fill(0);
        let sum = wire::checksum(source, own, &segment);
        segment[16..18].copy_from_slice(&sum.to_be_bytes());
        self.bytes.truncate(self.bytes.len() - tcp.len());
        self.bytes.extend(segment);
        fit(&mut self.bytes);
    }
}

/// Where a segment's header ends, as it says.
fn header_of(segment: &[u8]) -> usize {
    4 * usize::from(segment[12] >> 4)
}

/// The second capture, at first the same as the first.
struct Second {
    rng: Rng,
    own: Vec<u8>,
    header: Vec<u8>,
    order: Order,
    items: Vec<Item>,
}

impl Second {
    fn of(first: &File, mut listener: Listener, rng: Rng) -> Second {
        let own = listener.front().map_or(Vec::new(), |front| front.own().to_vec());
        let records = Walk::new(&first.bytes).filter_map(Result::ok);
        let items = (0..).zip(records).map(|(place, record)| {
            let fed = feed(&mut listener, place, &record, &mut [0; LEAST_OUTPUT]);
            let Record { seconds, microseconds, original, bytes } = record;
            Item { seconds, microseconds, original, bytes: bytes.to_vec(), reply: fed.map(|fed| fed.reply) }
        });
        let items = items.collect();
        Second { rng, own, header: first.bytes[..FILE_HEADER].to_vec(), order: first.order, items }
    }

    fn file(&self) -> File {
        let mut file = File::new(self.order);
        file.bytes = self.header.clone();
        self.items.iter().for_each(|item| file.add(&item.record()));
        file
    }

    /// The same in the other byte order.
    fn turn_order(&mut self) {
        self.order = if self.order == Order::Low { Order::High } else { Order::Low };
        self.header.chunks_exact_mut(4).for_each(<[u8]>::reverse);
    }

    fn any(&mut self) -> Option<usize> {
        self.some(|_| true)
    }

    fn some(&mut self, wanted: impl Fn(&Item) -> bool) -> Option<usize> {
        let places: Vec<usize> = (0..self.items.len()).filter(|&at| wanted(&self.items[at])).collect();
        (!places.is_empty()).then(|| self.rng.pick(&places))
    }

    /// One that is fed even after other changes.
    fn fed(&mut self) -> Option<usize> {
        let own = self.own.clone();
        self.some(|item| carried_to(&own, &item.bytes).is_some())
    }

    /// One change, if there is a record for it.
    fn change(&mut self) {
        #[rustfmt::skip]
        let _: Option<()> = match self.rng.weighted(&[8, 10, 16, 12, 6, 6, 6, 9, 8, 6, 8, 6, 5, 6, 6, 5]) {
            0 => self.flip(),
            1 => self.rewrite(),
            2 => self.other_part(),
            3 => self.move_part(),
            4 => self.no_cookie(),
            5 => self.other_kind(),
            6 => self.cover(),
            7 => self.drop_one(),
            8 => self.skip_one(),
            9 => self.skip_some(),
            10 => self.add_skipped(),
            11 => self.repeat_some(),
            12 => self.exchange(),
            13 => self.shorten(),
            14 => self.shift_time(),
            _ => self.dress(),
        };
    }

    /// A byte of a packet, whatever comes of it.
    fn flip(&mut self) -> Option<()> {
        let at = self.some(|item| !item.bytes.is_empty())?;
        let bytes = &mut self.items[at].bytes;
        let place = self.rng.index(bytes.len());
        bytes[place] ^= 1 << self.rng.below(8);
        Some(())
    }

    /// A byte of a segment, mostly of its header.
    fn rewrite(&mut self) -> Option<()> {
        let at = self.fed()?;
        let (place, bit) = (self.rng.pick(&[16, 60, 1520]), self.rng.below(8));
        let place = self.rng.index(place);
        self.items[at].reseal(&self.own, |segment| {
            let place = place % segment.len();
            segment[place] ^= 1 << bit;
        });
        Some(())
    }

    /// Another byte in an accepted part, now and then one behind it; in one opening or in many.
    fn other_part(&mut self) -> Option<()> {
        for _ in 0..self.rng.pick(&[1, 1, 1, 5, 20]) {
            let at = self.some(|item| item.early().is_some_and(|accepted| accepted > 0))?;
            let accepted = self.items[at].early()?;
            let (any, bit) = (self.rng.index(accepted), self.rng.below(8));
            let place = self.rng.pick(&[0, any, any, accepted - 1, accepted]);
            self.items[at].reseal(&self.own, |segment| {
                let place = header_of(segment) + place;
                if let Some(byte) = segment.get_mut(place) {
                    *byte ^= 1 << bit;
                }
            });
        }
        Some(())
    }

    /// Room before the payload: the accepted bytes are the same, and where they lie is not.
    fn move_part(&mut self) -> Option<()> {
        for _ in 0..self.rng.pick(&[1, 1, 5, 10]) {
            let at = self.some(|item| item.early().is_some_and(|accepted| accepted > 0))?;
            let first = self.rng.percent(50);
            self.items[at].reseal(&self.own, |segment| {
                let header = header_of(segment);
                let fits = header <= segment.len() && segment.len() + 4 <= LONGEST_SEGMENT;
                if (wire::HEADER..60).contains(&header) && fits {
                    let at = if first { wire::HEADER } else { header };
                    segment.splice(at..at, [NO_OPERATION; 4]);
                    segment[12] += 0x10;
                }
            });
        }
        Some(())
    }

    /// An early opening that brought nothing, without its cookie: the answer may well stay.
    fn no_cookie(&mut self) -> Option<()> {
        let at =
            self.some(|item| item.early() == Some(0)).or_else(|| self.some(|item| item.early().is_some()))?;
        let option = wire::HEADER + self.items[at].done()?.reading.used - 1;
        self.items[at].reseal(&self.own, |segment| {
            let length = usize::from(segment.get(option + 1).copied().unwrap_or(0));
            if let Some(bytes) = segment.get_mut(option..option + length) {
                bytes.fill(NO_OPERATION);
            }
        });
        Some(())
    }

    /// A completion made a reset, or a reset a completion; neither is answered with bytes.
    fn other_kind(&mut self) -> Option<()> {
        let at = self.some(|item| item.has(Kind::Completion) || item.has(Kind::Reset))?;
        let flags = if self.items[at].has(Kind::Completion) { RST } else { ACK };
        self.items[at].reseal(&self.own, |segment| segment[13] = flags);
        Some(())
    }

    /// One refused record for another one.
    fn cover(&mut self) -> Option<()> {
        let refused = |item: &Item| item.reply.is_some_and(|reply| reply.is_err());
        let (at, other) = (self.some(refused)?, self.some(refused)?);
        self.items[at].bytes = self.items[other].bytes.clone();
        Some(())
    }

    /// A record less, so that our numbers change from there on.
    fn drop_one(&mut self) -> Option<()> {
        let at = self.any()?;
        self.items.remove(at);
        Some(())
    }

    /// A fed record made a skipped one: our numbers stay, and it is no longer paired.
    fn skip_one(&mut self) -> Option<()> {
        let at = self.fed()?;
        self.items[at].bytes = spoilt(&mut self.rng, self.items[at].bytes.clone());
        Some(())
    }

    fn skip_some(&mut self) -> Option<()> {
        (0..self.rng.within(2, 12)).try_for_each(|_| self.skip_one())
    }

    /// A skipped record more, of either family.
    fn add_skipped(&mut self) -> Option<()> {
        let (at, like) = (self.any()?, self.fed()?);
        let mut item = self.items[like].clone();
        item.bytes = spoilt(&mut self.rng, item.bytes);
        self.items.insert(at, item);
        Some(())
    }

    /// Records that came twice, at once or later.
    fn repeat_some(&mut self) -> Option<()> {
        for _ in 0..self.rng.within(1, 6) {
            let at = self.any()?;
            let behind = (at + self.rng.pick(&[1, 1, 1, 2, 9])).min(self.items.len());
            let item = self.items[at].clone();
            self.items.insert(behind, item);
        }
        Some(())
    }

    /// Two that came in the other order.
    fn exchange(&mut self) -> Option<()> {
        let at = self.any().filter(|at| at + 1 < self.items.len())?;
        self.items.swap(at, at + 1);
        Some(())
    }

    /// Fewer at the end, mostly a few.
    fn shorten(&mut self) -> Option<()> {
        let any = self.any()?;
        let length = self.items.len();
        let fewer = self.rng.pick(&[1, 1, 2, 10, any]).min(length);
        self.items.truncate(length - fewer);
        Some(())
    }

    /// One record at another time, or all of them later by as much.
    fn shift_time(&mut self) -> Option<()> {
        let at = self.any()?;
        match self.rng.below(4) {
            0 => (self.items[at].seconds, self.items[at].microseconds) = (0, 0),
            1 => self.items[at].seconds = self.items[at].seconds.saturating_add(1000),
            2 => self.items[at].microseconds ^= 1 << self.rng.below(17),
            _ => {
                let last = self.items.iter().map(|item| item.seconds).max()?;
                let more = self.rng.pick(&[1, 3600, 86_400]).min(u32::MAX - last);
                self.items.iter_mut().for_each(|item| item.seconds += more);
            }
        }
        Some(())
    }

    /// What makes no difference: the original length, a hop less.
    fn dress(&mut self) -> Option<()> {
        let own = self.own.len();
        for item in self.items.iter_mut().filter(|item| item.reply.is_some()) {
            item.original = self.rng.next() as u32;
            if let Some(hops) = item.bytes.get_mut(if own == 4 { 8 } else { 7 }) {
                *hops = hops.wrapping_sub(1);
            }
        }
        Some(())
    }
}
