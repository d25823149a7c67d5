//! Captures, and the SETUP scripts that they fit: one seed gives both.

use super::listener::{Maker as Listening, Offer, Theme, FEW};
use super::packet::{dressed, spoilt};
use super::segment::{noise, Plan, Sum};
use super::{line, Rng};
use crate::capture;
use crate::listener::{Slot, Status, LEAST_OUTPUT};
use crate::packet::{carry, Carried, IPV4_HEADER, IPV6_HEADER};
use crate::pcap::{encode, Order, Record, FILE_HEADER, MAGIC, RAW_IP, RECORD_HEADER, SNAP_LENGTH};
use crate::wire::{ACK, LAST_TIME, RST};

pub fn setup(seed: u64) -> Vec<u8> {
    Maker::new(seed).listening.script.finish()
}

pub fn generate(seed: u64, records: usize) -> Vec<u8> {
    Maker::new(seed).run(records).file.bytes
}

/// Where in the file the last record begins.
pub fn last_record(seed: u64, records: usize) -> usize {
    Maker::new(seed).run(records).file.starts.last().copied().unwrap_or(FILE_HEADER)
}

/// What a capture is mostly about.
struct Traffic {
    theme: Theme,
    /// Weights of the records, in the order of `Maker::act`.
    records: [u64; 10],
}

/// What all captures share; few calls of SETUP are others than openings.
#[rustfmt::skip]
const ANY: Theme = Theme {
    calls: 0, addresses: 3, ports: 20, limits: &[64], holds: &[0], shares: FEW, damage: 8, right: 300,
    // open again compl reset aband resend close settings key noise kinds twins hold turn tell share
    actions: [30, 6, 6, 4, 4, 3, 3, 2, 3, 1, 1, 1, 1, 0, 0, 0], step: 6, leap: 60, near_last_time: false, brim: false, monday: false,
};

#[rustfmt::skip]
//                  open again compl reset kinds noise odd visit hold skipped
const TRAFFIC: [Traffic; 5] = [
    // a bit of everything
    Traffic {
        theme: Theme { addresses: 5, ports: 30, limits: &[5, 16, 64], holds: &[0, 100, 1000, 65_535], damage: 14, right: 160, step: 20, leap: 3000, ..ANY },
        records: [26, 12, 10, 12, 3, 3, 3, 4, 6, 34],
    },
    // resets and their holds
    Traffic {
        theme: Theme { ports: 12, limits: &[2, 3, 5, 10], holds: &[1, 2, 10, 40], ..ANY },
        records: [24, 8, 5, 26, 2, 1, 1, 1, 20, 20],
    },
    // one hospital and its share
    Traffic {
        theme: Theme { addresses: 1, ports: 50, limits: &[20, 64], holds: &[0, 5, 100], shares: &[1, 2, 3, 8, 8, 63], ..ANY },
        records: [36, 8, 12, 14, 1, 1, 1, 3, 6, 20],
    },
    // a full table
    Traffic {
        theme: Theme { addresses: 6, ports: 200, limits: &[40, 63, 64], holds: &[50, 65_535], shares: &[64], right: 650, ..ANY },
        records: [70, 8, 8, 4, 1, 1, 1, 1, 2, 16],
    },
    // hostile
    Traffic {
        theme: Theme { limits: &[2, 8, 64], holds: &[0, 7, 700], damage: 36, right: 120, leap: 500, ..ANY },
        records: [20, 12, 10, 10, 10, 10, 10, 2, 4, 50],
    },
];

/// The latest ms that a record can have.
const LATEST: u64 = u32::MAX as u64 * 1000 + u32::MAX as u64 / 1000;

/// What becomes of a file once its records are there.
#[derive(Clone, Copy)]
pub enum End {
    Well,
    BadMagic,
    OtherLink,
    ShortFile,
    CutHeader,
    CutBytes,
    TooLong,
}

impl End {
    pub fn any(rng: &mut Rng) -> End {
        if rng.percent(66) {
            return End::Well;
        }
        let hostile =
            [End::BadMagic, End::OtherLink, End::ShortFile, End::CutHeader, End::CutBytes, End::TooLong];
        hostile[rng.weighted(&[8, 9, 7, 22, 26, 28])]
    }
}

/// A file in the making.
pub struct File {
    pub order: Order,
    pub bytes: Vec<u8>,
    /// Where each record begins.
    pub starts: Vec<usize>,
}

impl File {
    pub fn new(order: Order) -> File {
        File { order, bytes: Vec::new(), starts: Vec::new() }
    }

    pub fn add(&mut self, record: &Record) {
        self.starts.push(self.bytes.len());
        self.bytes.extend(encode(record, record.bytes.len() as u32, self.order));
    }

    pub fn spoil(&mut self, rng: &mut Rng, end: End) {
        match end {
            End::Well => {}
            End::BadMagic => self.bytes[..4].copy_from_slice(&self.order.bytes(other_magic(rng))),
            End::OtherLink => self.bytes[20..FILE_HEADER].copy_from_slice(&self.order.bytes(other_link(rng))),
            End::ShortFile => self.bytes.truncate(rng.index(FILE_HEADER)),
            End::CutHeader => self.cut_header(rng),
            End::CutBytes => self.cut_bytes(rng),
            End::TooLong => self.add_too_long(rng),
        }
    }

    /// Cuts the last record within its header, or adds so much of one that would be too long.
    fn cut_header(&mut self, rng: &mut Rng) {
        let left = rng.within(1, RECORD_HEADER as u64 - 1) as usize;
        match self.starts.last() {
            Some(last) if rng.percent(70) => self.bytes.truncate(last + left),
            _ => self.bytes.extend(&record_header(self.order, SNAP_LENGTH + 1)[..left]),
        }
    }

    /// Cuts the last record behind its header, or adds one without its bytes.
    fn cut_bytes(&mut self, rng: &mut Rng) {
        let begin = self.starts.last().map_or(self.bytes.len(), |last| last + RECORD_HEADER);
        let length = self.bytes.len() - begin;
        if length > 0 {
            let any = rng.index(length);
            self.bytes.truncate(begin + rng.pick(&[any, any, 0, length - 1]));
        } else {
            self.bytes.extend(record_header(self.order, rng.pick(&[1, 40, SNAP_LENGTH - 1, SNAP_LENGTH])));
        }
    }

    /// A record of too many bytes, of which all, some or none are there, behind the others or
    /// between them.
    fn add_too_long(&mut self, rng: &mut Rng) {
        let least = SNAP_LENGTH + 1;
        let any = rng.within(least.into(), u32::MAX.into()) as u32;
        // also a right number in the wrong order
        let captured = rng.pick(&[least, least, least, 65_535, 1 << 16, 40_u32.swap_bytes(), any, u32::MAX]);
        let length = rng.pick(&[0, 0, 1, 60, least as usize - 1, least as usize]);
        let record = [record_header(self.order, captured), rng.bytes(length)].concat();
        let between = !self.starts.is_empty() && rng.percent(40);
        let at = if between { rng.pick(&self.starts) } else { self.bytes.len() };
        self.bytes.splice(at..at, record);
    }
}

pub struct Maker {
    /// Has made SETUP; its listener then gets the records as they come.
    pub listening: Listening,
    traffic: &'static Traffic,
    pub file: File,
    /// How many records there are to be.
    records: usize,
    /// When the capture begins, in ms.
    begin: u64,
}

impl Maker {
    fn new(seed: u64) -> Maker {
        Maker::with(seed, set_up)
    }

    /// One that has made its SETUP in this way.
    pub fn with(seed: u64, set_up: fn(&mut Listening, &Theme)) -> Maker {
        let mut listening = Listening::new(seed);
        let traffic = &TRAFFIC[listening.script.rng.index(TRAFFIC.len())];
        set_up(&mut listening, &traffic.theme);
        let rng = &mut listening.script.rng;
        let order = rng.pick(&[Order::Low, Order::High]);
        let any = rng.next() >> 32;
        let begin = match rng.below(8) {
            0 => 0,
            1 => any * 1000,
            // the last seconds there are, and past them by microseconds
            2 => u64::from(u32::MAX) * 1000 - rng.below(3000),
            3 => LATEST - rng.pick(&[0, 50, 3000, 200_000]),
            _ => 1_700_000_000_000 + rng.below(1 << 36),
        };
        Maker { listening, traffic, file: File::new(order), records: 0, begin }
    }

    pub fn rng(&mut self) -> &mut Rng {
        &mut self.listening.script.rng
    }

    fn run(mut self, records: usize) -> Maker {
        self.fill(records);
        let rng = &mut self.listening.script.rng;
        let end = End::any(rng);
        self.file.spoil(rng, end);
        self
    }

    /// Makes a whole file.
    pub fn fill(&mut self, records: usize) {
        let few = self.rng().within(0, 2) as usize;
        self.records = if self.rng().percent(4) { few.min(records) } else { records };
        self.file_header();
        while self.file.starts.len() + 1 < self.records {
            self.act();
        }
        if self.file.starts.len() < self.records {
            self.last();
        }
    }

    /// Version, zone, accuracy and snap length may be any.
    fn file_header(&mut self) {
        let any = self.rng().next() as u32;
        let version = self.rng().pick(&[4 << 16 | 2, 2 << 16 | 4, 0, any]);
        let zone = self.rng().pick(&[0, 0, 3600, any, u32::MAX]);
        let accuracy = self.rng().pick(&[0, 0, 6, any]);
        let snap = self.rng().pick(&[4096, 65_535, 262_144, 0, 96, any]);
        for number in [MAGIC, version, zone, accuracy, snap, RAW_IP] {
            self.file.bytes.extend(self.file.order.bytes(number));
        }
    }

    fn act(&mut self) {
        let theme = &self.traffic.theme;
        match self.listening.script.rng.weighted(&self.traffic.records) {
            5 => self.noise(),
            6 => self.odd(),
            7 => self.visit(),
            8 => self.hold(),
            9 => self.skipped(),
            kind => {
                let plan = self.some_plan(kind);
                let time = self.time(theme);
                self.segment(time, plan);
            }
        }
    }

    fn some_plan(&mut self, kind: usize) -> Plan {
        let theme = &self.traffic.theme;
        match kind {
            0 => self.listening.opening(theme),
            1 => self.listening.second_opening(theme),
            2 => self.listening.completion(theme),
            3 => self.listening.resetting(theme),
            _ => self.listening.any_kind(theme),
        }
    }

    /// A time that is accepted, unless SETUP has put the clock past all there are.
    fn time(&mut self, theme: &Theme) -> u64 {
        self.listening.time(theme).max(self.begin).min(LATEST)
    }

    /// A time before the clock, if there is one.
    fn early_time(&mut self) -> u64 {
        let clock = self.listening.clock().min(LATEST);
        let before = clock.saturating_sub(1);
        self.rng().pick(&[before, before, clock.saturating_sub(1000), clock / 2, 0])
    }

    /// Any time, for a record that can't move the clock.
    fn any_time(&mut self, theme: &Theme) -> u64 {
        let (now, early) = (self.time(theme), self.early_time());
        let any = self.rng().below(LATEST + 1);
        match self.rng().below(20) {
            0 => any,
            1 => LATEST,
            2 => early,
            _ => now,
        }
    }

    /// Seconds and microseconds of a time, now and then a million and more of the latter.
    fn stamp(&mut self, time: u64) -> (u32, u32) {
        let any = self.rng().below(1000);
        let all = 1000 * time + self.rng().pick(&[0, 999, any]);
        let mut seconds = (all / 1_000_000).min(u32::MAX.into());
        if seconds < u32::MAX.into() && self.rng().percent(12) {
            let any = self.rng().below(4294);
            seconds -= self.rng().pick(&[1, 2, any, 4293]).min(seconds);
        }
        let microseconds = (all - 1_000_000 * seconds).min(u32::MAX.into());
        (seconds as u32, microseconds as u32)
    }

    /// Adds a record, unless there are enough, and shows it to the listener.
    fn push(&mut self, time: u64, packet: &[u8]) {
        if self.file.starts.len() >= self.records {
            return;
        }
        let (seconds, microseconds) = self.stamp(time);
        let length = packet.len() as u32;
        let any = self.rng().next() as u32;
        let other = self.rng().pick(&[0, length + 1, length.saturating_sub(1), 1514, any, u32::MAX]);
        let original = if self.rng().percent(12) { other } else { length };
        let record = Record { seconds, microseconds, original, bytes: packet };
        let listener = &mut self.listening.script.session.listener;
        capture::feed(listener, self.file.starts.len() as u64, &record, &mut [0; LEAST_OUTPUT]);
        self.file.add(&record);
    }

    /// A packet to us with these bytes for its TCP part.
    fn packet(&mut self, source: &[u8], tcp: &[u8]) -> Vec<u8> {
        let own = self.listening.own.clone();
        dressed(self.rng(), &Carried { source, destination: &own, tcp })
    }

    /// A segment, sometimes damaged.
    fn segment(&mut self, mut time: u64, mut plan: Plan) {
        plan.decorate(self.rng());
        let early = self.early_time();
        let rng = &mut self.listening.script.rng;
        if rng.percent(self.traffic.theme.damage) {
            for _ in 0..rng.pick(&[1, 1, 1, 2, 3]) {
                match rng.weighted(&[22, 6, 18, 60]) {
                    0 => time = early,
                    1 => {
                        // refused, so its time is nothing to the clock
                        time = rng.pick(&[LATEST, (time + 100_000).min(LATEST)]);
                        plan.sum = Sum::Off(1 << rng.below(16));
                    }
                    2 => plan.destination_port ^= rng.pick(&[1, 256, 0x8000]),
                    _ => plan.damage(rng),
                }
            }
        }
        let packet = self.packet(&plan.source, &plan.encode());
        self.push(time, &packet);
    }

    fn undamaged(&mut self, plan: &Plan) {
        let time = self.time(&self.traffic.theme);
        let packet = self.packet(&plan.source, &plan.encode());
        self.push(time, &packet);
    }

    fn noise(&mut self) {
        let theme = &self.traffic.theme;
        let source = self.listening.address();
        let Listening { own, port, script, .. } = &mut self.listening;
        let tcp = noise(&mut script.rng, &source, own, *port);
        let time = self.time(theme);
        let packet = self.packet(&source, &tcp);
        self.push(time, &packet);
    }

    /// A TCP part that is empty or shorter than a header, as long as a segment may be, or as a
    /// record may be.
    fn odd(&mut self) {
        let theme = &self.traffic.theme;
        let mut plan = self.listening.opening(theme);
        let header = if self.listening.family == 4 { IPV4_HEADER } else { IPV6_HEADER };
        let most = SNAP_LENGTH as usize - header;
        let any = self.rng().within(1500, most as u64) as usize;
        plan.length =
            Some(self.rng().pick(&[0, 0, 1, 12, 13, 19, 20, 1519, 1520, 1521, any, most - 1, most]));
        let time = self.time(theme);
        let packet = self.packet(&plan.source, &plan.encode());
        self.push(time, &packet);
    }

    /// A client that asks for a cookie, gets it, and comes back with it and with data; both
    /// times it completes or gives up.
    fn visit(&mut self) {
        let theme = &self.traffic.theme;
        let source = self.listening.address();
        for offer in [Offer::Request, Offer::Right] {
            let opening = self.listening.newcomer(theme, &source, offer);
            self.undamaged(&opening);
            if self.rng().percent(20) {
                self.undamaged(&opening);
            }
            let Some(slot) = self.listening.slot_of(&opening) else { continue };
            let mut plan = self.listening.plan(&source, slot.port());
            plan.flags = self.rng().pick(&[ACK, ACK, RST]);
            plan.sequence = slot.expected().unwrap_or(slot.irs);
            plan.acknowledgement = slot.iss.wrapping_add(1);
            self.undamaged(&plan);
        }
    }

    /// Something just before a hold ends, at its end, or after.
    fn hold(&mut self) {
        let theme = &self.traffic.theme;
        let clock = self.listening.clock();
        let held = |slot: &Slot| matches!(slot.status, Status::Held { until } if until > clock);
        let slot = self.listening.some_slot(held);
        let Some(Slot { status: Status::Held { until }, .. }) = slot else {
            let plan = self.listening.resetting(theme);
            return self.undamaged(&plan);
        };
        let mut plan = self.listening.opening(theme);
        if let Some(slot) = slot.filter(|_| self.listening.script.rng.percent(50)) {
            // the held name itself
            plan = self.listening.plan(&slot.address(self.listening.family), slot.port());
            plan.options = self.listening.options(theme, &plan.source.clone());
            plan.sequence = slot.irs;
        }
        if until - clock < 3000 {
            self.listening.meeting = Some(until - 1 + self.rng().pick(&[0, 0, 1, 1, 1, 2]));
        }
        self.undamaged(&plan);
        self.listening.meeting = None;
    }

    /// A segment that would do something, in a packet that isn't taken.
    fn skipped(&mut self) {
        let kind = self.rng().weighted(&[60, 10, 20, 10]);
        let plan = self.some_plan(kind);
        let time = self.any_time(&self.traffic.theme);
        let packet = self.packet(&plan.source, &plan.encode());
        let mut packet = spoilt(self.rng(), packet);
        if packet.len() >= IPV6_HEADER && matches!(packet[0] >> 4, 4 | 6) && self.rng().percent(8) {
            packet = spoilt(self.rng(), packet);
        }
        self.push(time, &packet);
    }

    /// The last record, mostly a short one.
    fn last(&mut self) {
        if self.rng().percent(10) {
            return self.odd();
        }
        let kind = self.rng().weighted(&[40, 10, 20, 20]);
        let mut plan = self.some_plan(kind);
        plan.options.truncate(16);
        plan.payload.truncate(8);
        let time = self.time(&self.traffic.theme);
        let (source, tcp) = (&plan.source, &plan.encode());
        let packet = carry(&Carried { source, destination: &self.listening.own, tcp });
        self.push(time, &packet);
    }
}

/// The nanosecond magic, those of a mixed order, another file's, or one that is off by a bit.
fn other_magic(rng: &mut Rng) -> u32 {
    const NANOSECONDS: u32 = 0xa1b2_3c4d;
    let (any, bit) = (rng.next() as u32, 1 << rng.below(32));
    rng.pick(&[NANOSECONDS, NANOSECONDS, 0xb2a1_d4c3, 0xc3d4_a1b2, 0x0a0d_0d0a, MAGIC ^ bit, 0, any])
}

/// Other link types, often with the right one in a part of the word or in the wrong order.
fn other_link(rng: &mut Rng) -> u32 {
    let bit = 1 << rng.below(32);
    let whole = rng.pick(&[0, 1, 12, 100, 102, 228, 229, RAW_IP ^ bit]);
    rng.pick(&[whole, whole, RAW_IP | 1 << 16, RAW_IP | 0xf400_0000, RAW_IP << 16, RAW_IP.swap_bytes()])
}

/// A record's header that states so many captured bytes.
fn record_header(order: Order, captured: u32) -> Vec<u8> {
    let record = Record { seconds: 1_700_000_000, microseconds: 0, original: captured, bytes: &[] };
    encode(&record, captured, order)
}

/// A short SETUP: mostly a start, settings, perhaps keys and a few calls.
fn set_up(listening: &mut Listening, theme: &Theme) {
    listening.set_scene(theme);
    if listening.script.rng.percent(12) {
        listening.refused_start();
        if listening.script.rng.percent(50) {
            listening.act(theme);
        }
    }
    if listening.script.rng.percent(6) {
        // never started, whether or not it was tried
        match listening.script.rng.below(4) {
            0 => listening.refused_start(),
            1 => listening.settings(theme, Some(0)),
            2 => {
                listening.start();
                listening.refused_start();
            }
            _ => {}
        }
        return;
    }
    if listening.script.rng.percent(20) {
        let comment = line::silent(&mut listening.script.rng);
        listening.script.raw(&comment);
    }
    listening.start();
    if listening.script.rng.percent(97) {
        listening.settings(theme, Some(0));
    }
    for _ in 0..listening.script.rng.pick(&[0, 0, 0, 1, 1, 2]) {
        listening.key(theme);
    }
    if listening.script.rng.percent(40) {
        for _ in 0..listening.script.rng.within(1, 8) {
            listening.act(theme);
        }
    }
    if listening.script.rng.percent(2) {
        // no record is as late
        listening.settings(theme, Some(LAST_TIME));
    }
}
