//! Pieces of work to be timed from outside, each giving a digest of what it did so that
//! two programs' runs can be seen to be the same work.

use std::hint::black_box;

use crate::aes::Schedule;
use crate::capture;
use crate::listener::{cookie, Kind, Listener, Reply, Settings, Verdict, LEAST_OUTPUT, SLOTS, WHOLE_SHARE};
use crate::packet::{carry, Carried};
use crate::pcap::{Record, Walk, Writer};
use crate::wire::{self, Codings, Header, Reading, Refusal, ACK, SYN};

const KEY: [u8; 16] = [0, 1, 2, 3, 4, 5, 6, 7, 8, 9, 10, 11, 12, 13, 14, 15];
const NEXT_KEY: [u8; 16] = [16, 17, 18, 19, 20, 21, 22, 23, 24, 25, 26, 27, 28, 29, 30, 31];
const OWN: [u8; 4] = [192, 0, 2, 2];
const OWN_PORT: u16 = 443;
const PEER: [u8; 4] = [192, 0, 2, 1];
const PEER_PORT: u16 = 40_000;
/// Another address, which has many connections.
const CROWD: [u8; 4] = [192, 0, 2, 9];
const LIVE_PORT: u16 = 50_000;
/// An address that isn't ours.
const ELSEWHERE: [u8; 4] = [192, 0, 2, 3];
/// How many records the walked capture has.
const RECORDS: u16 = 1000;
const IRS: u32 = 1000;
const ISS: u32 = 7;
const SETTINGS: Settings = Settings {
    on: true,
    limit: 64,
    room: 1460,
    hold: 0,
    mss: 1460,
    codings: Codings::New,
    share: WHOLE_SHARE,
};

/// The digest of a work, or `None` for a name that is none.
pub fn run(work: &str, count: u64, live: usize, payload: usize) -> Option<u64> {
    let live = live.min(SLOTS);
    match work {
        "block" => Some(block(count)),
        "expand" => Some(expand(count)),
        "checksum" => Some(checksum(count, payload)),
        "options" => Some(options(count)),
        "early" => Some(Bench::new(live).open_and_abandon(count, &early_opening(payload))),
        "turned" => {
            let mut bench = Bench::new(live);
            bench.listener.key(0, &NEXT_KEY).expect("a right key");
            Some(bench.open_and_abandon(count, &early_opening(payload)))
        }
        "shared" => Some(Bench::crowded(live).open_and_abandon(count, &early_opening(payload))),
        "request" => Some(Bench::new(live).open_and_abandon(count, &request_opening(PEER_PORT))),
        "repeat" => Some(repeat(count, live, payload)),
        "completion" => Some(completion(count, live, payload)),
        "refusal" => {
            let mut opening = early_opening(payload);
            if let Some(last) = opening.last_mut() {
                *last ^= 1;
            }
            Some(openings(count, live, &opening))
        }
        "full" => Some(openings(count, SLOTS, &early_opening(payload))),
        "unknown" => Some(unknown(count, live)),
        "walk" => Some(walk(count)),
        _ => None,
    }
}

fn pattern(length: usize) -> Vec<u8> {
    (0..length).map(|i| (i % 256 * 7 + 3) as u8).collect()
}

fn first_eight(bytes: [u8; 16]) -> u64 {
    (u128::from_be_bytes(bytes) >> 64) as u64
}

fn block(count: u64) -> u64 {
    let schedule = Schedule::expand(&KEY);
    let mut b = 0x00112233445566778899aabbccddeeff_u128.to_be_bytes();
    for _ in 0..count {
        b = black_box(&schedule).encrypt(black_box(&b));
    }
    first_eight(b)
}

fn expand(count: u64) -> u64 {
    let mut k = KEY;
    for _ in 0..count {
        k = Schedule::expand(black_box(&k)).last_round_key();
    }
    first_eight(k)
}

fn checksum(count: u64, payload: usize) -> u64 {
    let bytes = pattern(payload);
    let mut sum = 0;
    for _ in 0..count {
        sum = wire::add_to_sum(black_box(sum), black_box(&bytes));
    }
    sum.into()
}

fn options(count: u64) -> u64 {
    let mut area = [
        2, 4, 5, 0xb4, 4, 2, 8, 10, 1, 2, 3, 4, 5, 6, 7, 8, 1, 3, 3, 7, 34, 10, 0xa1, 0xa2, 0xa3, 0xa4, 0xa5,
        0xa6, 0xa7, 0xa8, 1, 1,
    ];
    let mut digest = 0u64;
    for turn in 0..count {
        area[3] = turn as u8;
        let read = wire::read_options(black_box(&area), Codings::New);
        digest = digest.wrapping_add(read.mss.unwrap_or(0).into());
        if let Some(option) = read.fast_open {
            digest = digest.wrapping_add((option.at + option.cookie.len()) as u64);
        }
        let Reading { skipped, used, broken } = read.reading;
        digest = digest.wrapping_add((skipped + used + broken) as u64);
    }
    digest
}

/// A segment with a right checksum from a port of an address.
fn from(
    (source, source_port): ([u8; 4], u16),
    sequence: u32,
    acknowledgement: u32,
    flags: u8,
    options: &[u8],
    payload: &[u8],
) -> Vec<u8> {
    let mut segment = vec![0; wire::HEADER];
    segment.extend_from_slice(options);
    segment.extend_from_slice(payload);
    let header = Header { source_port, destination_port: OWN_PORT, sequence, acknowledgement, flags };
    wire::finish(&mut segment, &header, options.len(), &source, &OWN);
    segment
}

/// An opening with the right cookie of its address.
fn right_opening(source: [u8; 4], port: u16, payload: usize) -> Vec<u8> {
    let mut options = vec![2, 4, 5, 0xb4, 34, 10];
    options.extend_from_slice(&cookie(&KEY, &source));
    options.extend_from_slice(&[1, 1]);
    from((source, port), IRS, 0, SYN, &options, &pattern(payload))
}

fn early_opening(payload: usize) -> Vec<u8> {
    right_opening(PEER, PEER_PORT, payload)
}

fn request_opening(port: u16) -> Vec<u8> {
    from((PEER, port), IRS, 0, SYN, &[2, 4, 5, 0xb4, 34, 2, 1, 1], &[])
}

/// A listener under way, with the output it is lent and the digest so far.
struct Bench {
    listener: Listener,
    out: [u8; LEAST_OUTPUT],
    digest: u64,
}

impl Bench {
    fn new(live: usize) -> Bench {
        let mut listener = Listener::start(&OWN, OWN_PORT, &KEY).expect("a right start");
        listener.settings(0, SETTINGS).expect("right settings");
        let mut bench = Bench { listener, out: [0; LEAST_OUTPUT], digest: 0 };
        for port in (LIVE_PORT..).take(live) {
            let reply = bench.segment(ISS, &request_opening(port));
            assert!(matches!(reply, Ok(Reply { kind: Kind::Opening(_), .. })));
        }
        bench
    }

    /// One whose early connections are all another address's, which may have passed its share.
    fn crowded(live: usize) -> Bench {
        let mut bench = Bench::new(0);
        for port in (LIVE_PORT..).take(live) {
            let reply = bench.segment_from(&CROWD, ISS, &right_opening(CROWD, port, 0));
            assert!(matches!(reply, Ok(Reply { kind: Kind::Opening(Verdict::Early), .. })));
        }
        bench.listener.settings(0, Settings { share: 8, ..SETTINGS }).expect("right settings");
        bench
    }

    fn segment(&mut self, ours: u32, segment: &[u8]) -> Result<Reply, Refusal> {
        self.segment_from(&PEER, ours, segment)
    }

    fn segment_from(&mut self, source: &[u8; 4], ours: u32, segment: &[u8]) -> Result<Reply, Refusal> {
        self.listener.segment(0, black_box(source), ours, black_box(segment), &mut self.out)
    }

    fn add_segment(&mut self, ours: u32, segment: &[u8]) {
        let reply = self.segment(ours, segment);
        self.add_reply(reply);
    }

    fn add_reply(&mut self, reply: Result<Reply, Refusal>) {
        match reply {
            Ok(reply) => {
                self.digest = self.digest.wrapping_add((reply.accepted + reply.written) as u64);
                if reply.written > 0 {
                    let sum = u16::from_be_bytes([self.out[16], self.out[17]]);
                    self.digest = self.digest.wrapping_add(sum.into());
                }
            }
            Err(refusal) => self.add_number(Err(refusal)),
        }
    }

    fn add_number(&mut self, result: Result<(), Refusal>) {
        let number = result.map_or_else(Refusal::number, |()| 0);
        self.digest = self.digest.wrapping_add(number.into());
    }

    fn open_and_abandon(mut self, count: u64, opening: &[u8]) -> u64 {
        for turn in 0..count {
            self.add_segment(turn as u32, opening);
            let result = self.listener.abandon(0, black_box(&PEER), black_box(PEER_PORT));
            self.add_number(result);
        }
        self.digest
    }
}

/// A capture of openings that ask for a cookie, each from an address and a port of its own and
/// with a TCP part of 100 bytes; every second one goes elsewhere. All have one time, so that the
/// capture can be walked again.
fn requests() -> Vec<u8> {
    let mut capture = Writer::new();
    for number in 0..RECORDS {
        let [high, low] = number.to_be_bytes();
        let source = [10, 0, high, low];
        let options = [2, 4, 5, 0xb4, 34, 2, 1, 1];
        let tcp = from((source, PEER_PORT + number), IRS, 0, SYN, &options, &pattern(72));
        let destination = if number % 2 == 0 { &OWN } else { &ELSEWHERE };
        let bytes = carry(&Carried { source: &source, destination, tcp: &tcp });
        let record =
            Record { seconds: 1, microseconds: 999_999, original: bytes.len() as u32, bytes: &bytes };
        capture.add(&record).expect("a short record");
    }
    capture.file
}

/// A turn is a record, from the first again after the last. The listener has fresh settings; once
/// its table is full, openings are repeats or refused.
fn walk(count: u64) -> u64 {
    let file = requests();
    let listener = Listener::start(&OWN, OWN_PORT, &KEY).expect("a right start");
    let mut bench = Bench { listener, out: [0; LEAST_OUTPUT], digest: 0 };
    let mut left = count;
    while left > 0 {
        for (place, record) in (0..left).zip(Walk::new(black_box(&file))) {
            let record = record.expect("a whole capture");
            bench.digest = bench.digest.wrapping_add(record.time());
            if let Some(fed) = capture::feed(&mut bench.listener, place, &record, &mut bench.out) {
                bench.add_reply(fed.reply);
            }
        }
        left = left.saturating_sub(RECORDS.into());
    }
    bench.digest
}

fn openings(count: u64, live: usize, opening: &[u8]) -> u64 {
    let mut bench = Bench::new(live);
    for turn in 0..count {
        bench.add_segment(turn as u32, opening);
    }
    bench.digest
}

fn repeat(count: u64, live: usize, payload: usize) -> u64 {
    let opening = early_opening(payload);
    let mut bench = Bench::new(live);
    let _ = bench.segment(ISS, &opening);
    for turn in 0..count {
        bench.add_segment(turn as u32, &opening);
    }
    bench.digest
}

fn completion(count: u64, live: usize, payload: usize) -> u64 {
    let opening = early_opening(payload);
    // The whole payload is accepted up to the early room.
    let accepted = payload.min(1460) as u32;
    let completion = from((PEER, PEER_PORT), IRS + 1 + accepted, ISS + 1, ACK, &[], &[]);
    let mut bench = Bench::new(live);
    for turn in 0..count {
        bench.add_segment(ISS, &opening);
        bench.add_segment(turn as u32, &completion);
        let result = bench.listener.close(0, black_box(&PEER), black_box(PEER_PORT));
        bench.add_number(result);
    }
    bench.digest
}

fn unknown(count: u64, live: usize) -> u64 {
    let mut bench = Bench::new(live);
    for _ in 0..count {
        let result = bench.listener.abandon(0, black_box(&PEER), black_box(PEER_PORT));
        bench.add_number(result);
    }
    bench.digest
}
