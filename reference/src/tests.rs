//! Tests of the listener, the client and the scripts together.

use std::collections::{BTreeMap, BTreeSet};

use crate::client::{Attempt, Client, Learnt, Memory, BAN_MS, LEAST_OUTPUT as CLIENT_OUTPUT};
use crate::generate;
use crate::listener::{
    accepted_part, cookie, Kind, Listener, Reply, Settings, Slot, Status, Verdict, LEAST_OUTPUT,
};
use crate::script::{self, ClientSession, ListenerSession, Session};
use crate::summary::{Side, Summary};
use crate::timing;
use crate::wire::{self, Coding, Codings, Header, Reading, Refusal, ACK, FIN, LAST_TIME, RST, SYN};

const KEY: [u8; 16] = [0, 1, 2, 3, 4, 5, 6, 7, 8, 9, 10, 11, 12, 13, 14, 15];
const OWN: [u8; 4] = [192, 0, 2, 2];
const PEER: [u8; 4] = [192, 0, 2, 1];
const PORT: u16 = 40_000;
const SETTINGS: Settings =
    Settings { on: true, limit: 8, room: 1460, hold: 0, mss: 1460, codings: Codings::New, share: 64 };
const BOTH: Settings = Settings { codings: Codings::Both, ..SETTINGS };
/// The codings with the settings that count them.
const COUNTED: [(Coding, Settings); 3] =
    [(Coding::New, SETTINGS), (Coding::New, BOTH), (Coding::Older, BOTH)];

fn seg(port: u16, seq: u32, ack: u32, flags: u8, options: &[u8], payload: &[u8]) -> Vec<u8> {
    let mut segment = vec![0; 20];
    segment.extend_from_slice(options);
    segment.extend_from_slice(payload);
    let header =
        Header { source_port: port, destination_port: 443, sequence: seq, acknowledgement: ack, flags };
    wire::finish(&mut segment, &header, options.len(), &PEER, &OWN);
    segment
}

/// An area with just the Fast Open option with this cookie.
fn coded(coding: Coding, cookie: &[u8]) -> Vec<u8> {
    let mut options = match coding {
        Coding::New => vec![34, 2 + cookie.len() as u8],
        Coding::Older => vec![254, 4 + cookie.len() as u8, 0xf9, 0x89],
    };
    options.extend_from_slice(cookie);
    options.resize(options.len().next_multiple_of(4), 1);
    options
}

fn fast_open(cookie: &[u8]) -> Vec<u8> {
    coded(Coding::New, cookie)
}

fn older(cookie: &[u8]) -> Vec<u8> {
    coded(Coding::Older, cookie)
}

struct Box64 {
    listener: Listener,
    out: [u8; LEAST_OUTPUT],
    /// In which openings are written.
    coding: Coding,
}

impl Box64 {
    fn with(settings: Settings) -> Box64 {
        Box64::coded(Coding::New, settings)
    }

    fn coded(coding: Coding, settings: Settings) -> Box64 {
        let mut listener = Listener::start(&OWN, 443, &KEY).unwrap();
        listener.settings(0, settings).unwrap();
        Box64 { listener, out: [0xa5; LEAST_OUTPUT], coding }
    }

    fn segment(&mut self, time: u64, ours: u32, segment: &[u8]) -> Result<Reply, Refusal> {
        self.out.fill(0xa5);
        let reply = self.listener.segment(time, &PEER, ours, segment, &mut self.out);
        let written = reply.map_or(0, |reply| reply.written);
        assert!(self.out[written..].iter().all(|&b| b == 0xa5));
        reply
    }

    fn open(&mut self, port: u16, irs: u32, cookie: &[u8], payload: &[u8]) -> Result<Reply, Refusal> {
        self.open_with(port, irs, &coded(self.coding, cookie), payload)
    }

    fn open_with(&mut self, port: u16, irs: u32, options: &[u8], payload: &[u8]) -> Result<Reply, Refusal> {
        self.segment(0, 1000, &seg(port, irs, 0, SYN, options, payload))
    }

    fn resend(&mut self, port: u16) -> usize {
        self.out.fill(0xa5);
        self.listener.resend(0, &PEER, port, &mut self.out).unwrap()
    }

    fn acknowledgement(&self) -> u32 {
        u32::from_be_bytes(self.out[8..12].try_into().unwrap())
    }
}

/// How many were skipped, where the one used begins, and where reading broke off.
const fn told(skipped: usize, used: usize, broken: usize) -> Reading {
    Reading { skipped, used, broken }
}

fn opened(verdict: Verdict, accepted: usize, written: usize, reading: Reading) -> Reply {
    Reply { accepted, written, reading, ..Reply::bare(Kind::Opening(verdict)) }
}

fn verdict(reply: Result<Reply, Refusal>) -> Option<Verdict> {
    match reply {
        Ok(Reply { kind: Kind::Opening(verdict), .. }) => Some(verdict),
        _ => None,
    }
}

fn right() -> [u8; 8] {
    cookie(&KEY, &PEER)
}

#[test]
fn rows_1_2_and_16_acknowledgements() {
    let mut front = Box64::with(SETTINGS);
    let reply = front.segment(0, 1000, &seg(PORT, u32::MAX, 0, SYN, &[], &[])).unwrap();
    assert_eq!((reply.accepted, reply.written), (0, 24));
    assert_eq!(front.acknowledgement(), 0);
    let row_16 = [
        0x01, 0xbb, 0x9c, 0x40, 0x00, 0x00, 0x03, 0xe8, 0x00, 0x00, 0x00, 0x00, 0x60, 0x12, 0xff, 0xff, 0x72,
        0x2f, 0x00, 0x00, 0x02, 0x04, 0x05, 0xb4,
    ];
    assert_eq!(front.out[..24], row_16);

    let reply = front.open(PORT + 1, 4_294_967_290, &right(), b"0123456789").unwrap();
    assert_eq!((reply.accepted, reply.written), (10, 24));
    assert_eq!(front.acknowledgement(), 5);
}

#[test]
fn rows_3_to_5_window() {
    for (sequence, admitted) in [(65_539, true), (65_540, false), (4, false), (5, true)] {
        let mut front = Box64::with(SETTINGS);
        front.open(PORT, 4_294_967_290, &right(), b"0123456789").unwrap();
        let reply = front.segment(0, 0, &seg(PORT, sequence, 1001, ACK, &[], b"data"));
        let done = Ok(Reply::bare(Kind::Completion));
        assert_eq!(reply, if admitted { done } else { Err(Refusal::Number) }, "{sequence}");
        assert_eq!(front.listener.pending(), u32::from(!admitted));
    }
}

#[test]
fn rows_6_to_12_options() {
    let cookie = |area: &'static [u8]| {
        let used = |codings| wire::read_options(area, codings).fast_open;
        assert_eq!(used(Codings::New), used(Codings::Both), "no difference without kind 254");
        used(Codings::New).map(|option| option.cookie)
    };
    assert_eq!(cookie(&[34, 2]), Some(&[][..]));
    assert_eq!(cookie(&[34, 3, 0]), None);
    assert_eq!(cookie(&[34, 3, 0, 34, 2]), Some(&[][..]), "skipped, not the end");
    assert_eq!(cookie(&[34, 4, 1, 2]), None);
    assert_eq!(cookie(&[34, 4, 1, 2, 34, 2]), Some(&[][..]), "skipped, not the end");
    assert_eq!(cookie(&[34, 6, 1, 2, 3, 4]), Some(&[1, 2, 3, 4][..]));
    assert_eq!(
        cookie(&[34, 18, 1, 2, 3, 4, 5, 6, 7, 8, 9, 10, 11, 12, 13, 14, 15, 16]),
        Some(&[1, 2, 3, 4, 5, 6, 7, 8, 9, 10, 11, 12, 13, 14, 15, 16][..])
    );
    assert_eq!(cookie(&[34, 0, 34, 2]), None);
    assert_eq!(cookie(&[1, 34]), None);
}

#[test]
fn rows_13_to_15_limit() {
    for (coding, settings) in COUNTED {
        let mut front = Box64::coded(coding, Settings { limit: 0, ..settings });
        let reply = front.open(PORT, 1, &right(), b"x");
        assert_eq!(verdict(reply), Some(Verdict::Plain));
        assert_eq!(reply.unwrap().written, 24);

        let mut front = Box64::coded(coding, Settings { limit: 2, ..settings });
        assert_eq!(verdict(front.open(PORT, 1, &right(), b"x")), Some(Verdict::Early));
        assert_eq!(front.listener.pending(), 1);
        assert_eq!(verdict(front.open(PORT + 1, 1, &right(), b"x")), Some(Verdict::Early));
        assert_eq!(front.listener.pending(), 2);
        let reply = front.open(PORT + 2, 1, &right(), b"x");
        assert_eq!(verdict(reply), Some(Verdict::Plain));
        assert_eq!(reply.unwrap().written, 24);
        assert_eq!(front.listener.pending(), 2);
    }
}

#[test]
fn rows_of_the_older_coding() {
    // The option used when both are read, and under new only: its coding, where its cookie
    // begins, and the cookie.
    const EIGHT: &[u8] = &[1, 2, 3, 4, 5, 6, 7, 8];
    const NO: &[u8] = &[];
    let (new, older) = (Coding::New, Coding::Older);
    for (area, both, new_only) in [
        (&[254, 4, 0xf9, 0x89][..], Some((older, 4, NO)), None),
        (&[254, 12, 0xf9, 0x89, 1, 2, 3, 4, 5, 6, 7, 8], Some((older, 4, EIGHT)), None),
        (&[254, 6, 0xf9, 0x89, 1, 2], None, None),
        (&[254, 6, 0xf9, 0x89, 1, 2, 34, 2], Some((new, 8, NO)), Some((new, 8, NO))),
        (&[254, 6, 0, 0, 1, 2, 254, 4, 0, 0, 254, 3, 0xf9], None, None),
        (&[254, 6, 0, 0, 1, 2, 254, 4, 0, 0, 254, 3, 0xf9, 34, 2], Some((new, 15, NO)), Some((new, 15, NO))),
        (&[254, 4, 0xf9, 0x89, 34, 10, 1, 2, 3, 4, 5, 6, 7, 8], Some((older, 4, NO)), Some((new, 6, EIGHT))),
        (&[34, 10, 1, 2, 3, 4, 5, 6, 7, 8, 254, 4, 0xf9, 0x89], Some((new, 2, EIGHT)), Some((new, 2, EIGHT))),
        (&[254, 4, 0xf9, 0x88], None, None),
        (&[254, 4, 0xf8, 0x89], None, None),
        (&[254, 5, 0xf9, 0x89, 1], None, None),
        (&[254, 7, 0xf9, 0x89, 1, 2, 3], None, None),
        (&[254, 4, 0xf9], None, None),
        (&[1, 1, 1, 254], None, None),
        (&[254, 2, 34, 2], Some((new, 4, NO)), Some((new, 4, NO))),
    ] {
        let used = |codings| {
            wire::read_options(area, codings).fast_open.map(|used| (used.coding, used.at, used.cookie))
        };
        assert_eq!(used(Codings::Both), both, "{area:?}");
        assert_eq!(used(Codings::New), new_only, "{area:?}");
    }
}

#[test]
fn cookie_lengths_of_the_older_coding() {
    for (length, cookie) in [(4, 0), (8, 4), (10, 6), (12, 8), (14, 10), (16, 12), (18, 14), (20, 16)] {
        let area = older(&vec![7; cookie]);
        assert_eq!(area[1], length);
        let used = wire::read_options(&area, Codings::Both).fast_open.unwrap();
        assert_eq!((used.coding, used.cookie.len()), (Coding::Older, cookie));
        let mut front = Box64::coded(Coding::Older, BOTH);
        let reply = front.open(PORT, 1, &vec![7; cookie], b"x").unwrap();
        assert_eq!(reply, opened(Verdict::Plain, 0, 36, told(0, 1, 0)));
    }
    for length in [5, 6, 7, 9, 11, 17, 19, 21, 22, 24, 36] {
        let mut front = Box64::coded(Coding::Older, BOTH);
        let reply = front.open(PORT, 1, &vec![7; length - 4], b"x").unwrap();
        assert_eq!(reply, opened(Verdict::Plain, 0, 24, told(1, 0, 0)));
    }
}

/// The answer to an opening with number 7 from `PORT`, without a cookie and with one in the
/// older coding.
const SHORT: [u8; 24] = [
    0x01, 0xbb, 0x9c, 0x40, 0x00, 0x00, 0x03, 0xe8, 0x00, 0x00, 0x00, 0x08, 0x60, 0x12, 0xff, 0xff, 0x72,
    0x27, 0x00, 0x00, 0x02, 0x04, 0x05, 0xb4,
];
const OLDER_COOKIE: [u8; 36] = [
    0x01, 0xbb, 0x9c, 0x40, 0x00, 0x00, 0x03, 0xe8, 0x00, 0x00, 0x00, 0x08, 0x90, 0x12, 0xff, 0xff, 0x06,
    0x9f, 0x00, 0x00, 0x02, 0x04, 0x05, 0xb4, 0xfe, 0x0c, 0xf9, 0x89, 0xb5, 0x2d, 0x0a, 0x13, 0xdd, 0xe9,
    0xa6, 0xba,
];

#[test]
fn answers_in_the_older_coding() {
    for offered in [&[][..], &[7; 8], &[7; 16]] {
        let mut front = Box64::coded(Coding::Older, BOTH);
        let reply = front.open(PORT, 7, offered, b"x").unwrap();
        assert_eq!(reply, opened(Verdict::Plain, 0, 36, told(0, 1, 0)));
        assert_eq!(front.out, OLDER_COOKIE);
        let reply = front.open(PORT, 7, offered, b"x").unwrap();
        assert_eq!(reply, opened(Verdict::Repeat, 0, 24, told(0, 1, 0)));
        assert_eq!(front.out[..24], SHORT);
        assert_eq!(front.resend(PORT), 24);
        assert_eq!(front.out[..24], SHORT);
    }
}

#[test]
fn the_option_used_decides() {
    let (wrong, right) = ([7; 8], right());
    let skipped = [&[254, 6, 0xf9, 0x89, 7, 7, 1, 1][..], &[34, 4, 7, 7]];
    let other = [&[254, 12, 0xf9, 0x88], &right[..]].concat();
    let unmarked = [&[254, 10], &right[..], &[1, 1]].concat();
    let marked = [&[34, 12, 0xf9, 0x89], &right[..]].concat();
    // The options of an opening, its verdict when both are read, and what follows the size in
    // its answer.
    for (options, early, fresh) in [
        ([older(&wrong), fast_open(&right)], false, older(&right)),
        ([fast_open(&wrong), older(&right)], false, fast_open(&right)),
        ([older(&[]), fast_open(&right)], false, older(&right)),
        ([fast_open(&[]), older(&right)], false, fast_open(&right)),
        ([older(&right), fast_open(&wrong)], true, vec![]),
        ([fast_open(&right), older(&wrong)], true, vec![]),
        ([skipped[0].to_vec(), fast_open(&right)], true, vec![]),
        ([skipped[1].to_vec(), older(&right)], true, vec![]),
        ([skipped[0].to_vec(), older(&right)], true, vec![]),
        ([skipped[0].to_vec(), skipped[1].to_vec()], false, vec![]),
        ([other.clone(), older(&right)], true, vec![]),
        ([other, fast_open(&wrong)], false, fast_open(&right)),
        ([unmarked, vec![]], false, vec![]),
        ([marked, older(&right)], false, fast_open(&right)),
    ] {
        let mut front = Box64::with(BOTH);
        let reply = front.open_with(PORT, 1, &options.concat(), b"x").unwrap();
        let verdict = if early { Verdict::Early } else { Verdict::Plain };
        assert_eq!(reply.kind, Kind::Opening(verdict), "{options:?}");
        assert_eq!(front.out[24..reply.written], fresh, "{options:?}");
        assert_eq!(front.listener.pending(), early.into());
    }
}

#[test]
fn the_older_coding_under_new_only() {
    let mut front = Box64::coded(Coding::Older, SETTINGS);
    for (port, offered) in [(PORT, &right()[..]), (PORT + 1, &[7; 8]), (PORT + 2, &[])] {
        let reply = front.open(port, 7, offered, b"x").unwrap();
        assert_eq!(reply, opened(Verdict::Plain, 0, 24, told(0, 0, 0)));
    }
    // Kind 34 behind it is the one used.
    let behind = |cookie: &[u8]| [older(&[7; 8]), fast_open(cookie)].concat();
    let reply = front.open_with(PORT + 3, 7, &behind(&right()), b"x").unwrap();
    assert_eq!(reply, opened(Verdict::Early, 1, 24, told(0, 13, 0)));
    let reply = front.open_with(PORT + 4, 7, &behind(&[]), b"x").unwrap();
    assert_eq!(reply, opened(Verdict::Plain, 0, 36, told(0, 13, 0)));
    assert_eq!(front.out[24..], fast_open(&right()));
}

#[test]
fn the_coding_setting_changes() {
    let started = Listener::start(&OWN, 443, &KEY).unwrap();
    assert_eq!(started.front().unwrap().current_settings().codings, Codings::New, "when fresh");

    let verdict_of = |front: &mut Box64, port| verdict(front.open(port, 7, &right(), b"x")).unwrap();
    for (before, after, first, then) in
        [(BOTH, SETTINGS, Verdict::Early, Verdict::Plain), (SETTINGS, BOTH, Verdict::Plain, Verdict::Early)]
    {
        let mut front = Box64::coded(Coding::Older, before);
        assert_eq!(verdict_of(&mut front, PORT), first);
        // A refused call leaves the coding as it is.
        assert_eq!(front.listener.settings(0, Settings { mss: 0, ..after }), Err(Refusal::Range));
        assert_eq!(verdict_of(&mut front, PORT + 1), first);
        let pending = front.listener.pending();
        front.listener.settings(0, after).unwrap();

        // What was opened stays as it is; its options are read as is set now.
        let used = usize::from(after.codings == Codings::Both);
        let reply = front.open(PORT, 7, &right(), b"x").unwrap();
        assert_eq!(reply, opened(Verdict::Repeat, 0, 24, told(0, used, 0)));
        let accepted = u32::from(first == Verdict::Early);
        assert_eq!(front.acknowledgement(), 8 + accepted);
        let repeat = front.out;
        assert_eq!(front.resend(PORT), 24);
        assert_eq!(front.out, repeat);
        assert_eq!(front.listener.pending(), pending);
        assert_eq!(verdict_of(&mut front, PORT + 2), then);
        let completion = seg(PORT, 8 + accepted, 1001, ACK, &[], &[]);
        assert_eq!(front.segment(0, 0, &completion).unwrap().kind, Kind::Completion);
    }
    // A plain one that asked in the older coding is answered without a cookie when repeated.
    let mut front = Box64::coded(Coding::Older, SETTINGS);
    front.open(PORT, 7, &[], b"").unwrap();
    front.listener.settings(0, BOTH).unwrap();
    assert_eq!(front.open(PORT, 7, &[], b"").unwrap().written, 24);
    assert_eq!(front.out[..24], SHORT);
}

/// Options that tell something of each sort: one is skipped in each coding before that with
/// the cookie, one behind it, and the last byte breaks the reading off.
fn telling(cookie: &[u8; 8]) -> Vec<u8> {
    let before = [254, 6, 0xf9, 0x89, 0, 0, 34, 3, 0];
    [&before[..], &[34, 10], cookie, &[34, 4, 0, 0, 5]].concat()
}

/// What is told of them under new only, and under both.
const TOLD: [(Settings, Reading); 2] = [(SETTINGS, told(2, 10, 24)), (BOTH, told(3, 10, 24))];

/// Options of which the same is told under either.
const SAMPLES: [(&[u8], Reading); 5] = [
    (&[34, 3, 0, 34, 2, 1, 1, 1], told(1, 4, 0)),
    (&[2, 4, 5, 180, 34, 0, 1, 1], told(0, 0, 5)),
    (&[1, 1, 1, 34], told(0, 0, 4)),
    (&[0, 34, 3, 0], told(0, 0, 0)),
    (&[], told(0, 0, 0)),
];

#[test]
fn openings_tell() {
    for (settings, reading) in TOLD {
        let full = Settings { limit: 0, ..settings };
        let off = Settings { on: false, ..settings };
        for (settings, cookie, expected) in [
            (settings, right(), opened(Verdict::Early, 1, 24, reading)),
            (settings, [7; 8], opened(Verdict::Plain, 0, 36, reading)),
            (full, right(), opened(Verdict::Plain, 0, 24, reading)),
            (off, right(), opened(Verdict::Plain, 0, 24, reading)),
        ] {
            let mut front = Box64::with(settings);
            assert_eq!(front.open_with(PORT, 7, &telling(&cookie), b"x"), Ok(expected), "{settings:?}");
            let repeat = opened(Verdict::Repeat, 0, 24, reading);
            assert_eq!(front.open_with(PORT, 7, &telling(&cookie), b"x"), Ok(repeat), "{settings:?}");
        }
        for (options, reading) in SAMPLES {
            let mut front = Box64::with(settings);
            for verdict in [Verdict::Plain, Verdict::Repeat] {
                let reply = front.open_with(PORT, 7, options, b"").unwrap();
                assert_eq!((reply.kind, reply.reading), (Kind::Opening(verdict), reading), "{options:?}");
            }
        }
    }
    // Before any settings Fast Open is off, and new only is read.
    let mut front = Box64 { listener: Listener::start(&OWN, 443, &KEY).unwrap(), ..Box64::with(BOTH) };
    let reply = front.open_with(PORT, 7, &telling(&right()), b"x");
    assert_eq!(reply, Ok(opened(Verdict::Plain, 0, 24, told(2, 10, 24))));
}

#[test]
fn a_repeat_tells_of_its_own_options() {
    for (settings, reading) in TOLD {
        let mut front = Box64::with(settings);
        front.open(PORT, 7, &[], b"").unwrap();
        assert_eq!(front.open_with(PORT, 7, &telling(&right()), b"").unwrap().reading, reading);
        assert_eq!(front.open_with(PORT, 7, &[], b"").unwrap().reading, told(0, 0, 0));
    }
    // Under the setting of its own time.
    let mut front = Box64::with(SETTINGS);
    for (settings, reading) in [TOLD[0], TOLD[1], TOLD[0]] {
        front.listener.settings(0, settings).unwrap();
        assert_eq!(front.open_with(PORT, 7, &telling(&right()), b"").unwrap().reading, reading);
    }
}

#[test]
fn nothing_is_told_without_syn() {
    for settings in [SETTINGS, BOTH, Settings { on: false, ..BOTH }] {
        for (flags, kind) in [
            (ACK, Kind::Completion),
            (ACK | FIN, Kind::Completion),
            (RST, Kind::Reset),
            (RST | ACK | FIN, Kind::Reset),
        ] {
            let mut front = Box64::with(settings);
            front.open_with(PORT, 7, &telling(&[7; 8]), b"").unwrap();
            let reply = front.segment(0, 0, &seg(PORT, 8, 1001, flags, &telling(&right()), b"x"));
            assert_eq!(reply, Ok(Reply::bare(kind)));
            assert_eq!(Reply::bare(kind).reading, told(0, 0, 0));
        }
    }
}

#[test]
fn second_twin_is_no_repeat() {
    let mut front = Box64::with(SETTINGS);
    let first = seg(PORT, 77, 0, SYN, &fast_open(&right()), b"first girl");
    let second = seg(PORT + 1, 77, 0, SYN, &fast_open(&right()), b"second girl");
    let reply = front.segment(0, 5, &first).unwrap();
    assert_eq!(accepted_part(&first, reply.accepted), b"first girl");
    let reply = front.segment(0, 6, &second).unwrap();
    assert_eq!(reply.kind, Kind::Opening(Verdict::Early));
    assert_eq!(accepted_part(&second, reply.accepted), b"second girl");
    // The repeat answers from the stored numbers.
    let reply = front.segment(0, 9, &first).unwrap();
    assert_eq!(reply, opened(Verdict::Repeat, 0, 24, told(0, 1, 0)));
    assert_eq!(front.out[4..12], [0, 0, 0, 5, 0, 0, 0, 88]);
    assert_eq!(front.listener.pending(), 2);
}

#[test]
fn accepted_part_fits_the_segment() {
    let segment = seg(PORT, 77, 0, SYN, &[], b"abc");
    assert_eq!(accepted_part(&segment, 3), b"abc");
    assert_eq!(accepted_part(&segment, 2), b"ab");
    assert_eq!(accepted_part(&segment, 4), b"");
    assert_eq!(accepted_part(&segment[..19], 0), b"");
}

#[test]
fn keys_turn() {
    let (other, third) = ([9; 16], [8; 16]);
    for (coding, settings) in COUNTED {
        let mut front = Box64::coded(coding, settings);
        front.listener.key(0, &other).unwrap();
        // Under the previous key: early, and replaced at once.
        let reply = front.open(PORT, 1, &right(), b"x").unwrap();
        assert_eq!(reply, opened(Verdict::Early, 1, 36, told(0, 1, 0)));
        assert_eq!(front.out[24..], coded(coding, &cookie(&other, &PEER)));
        let reply = front.open(PORT + 1, 1, &cookie(&other, &PEER), b"x").unwrap();
        assert_eq!((reply.accepted, reply.written), (1, 24));
        // Two keys back: wrong, so plain with a new cookie.
        front.listener.key(0, &third).unwrap();
        let reply = front.open(PORT + 2, 1, &right(), b"x").unwrap();
        assert_eq!(reply, opened(Verdict::Plain, 0, 36, told(0, 1, 0)));
        assert_eq!(front.out[24..], coded(coding, &cookie(&third, &PEER)));
        // A request too; with no option, or when off, there is no cookie.
        assert_eq!(front.open(PORT + 3, 1, &[], b"x").unwrap().written, 36);
        assert_eq!(front.segment(0, 1, &seg(PORT + 4, 1, 0, SYN, &[], b"x")).unwrap().written, 24);
        front.listener.settings(0, Settings { on: false, ..settings }).unwrap();
        let reply = front.open(PORT + 5, 1, &cookie(&third, &PEER), b"x").unwrap();
        assert_eq!(reply, opened(Verdict::Plain, 0, 24, told(0, 1, 0)));
    }
}

#[test]
fn reset_is_held() {
    let mut front = Box64::with(Settings { hold: 10, limit: 1, ..SETTINGS });
    let opening = seg(PORT, 1, 0, SYN, &fast_open(&right()), b"xy");
    front.segment(5, 1000, &opening).unwrap();
    assert_eq!(front.segment(5, 0, &seg(PORT, 2, 0, RST, &[], &[])), Err(Refusal::Number));
    front.segment(5, 0, &seg(PORT, 4, 0, RST | ACK | FIN, &[], &[])).unwrap();
    assert_eq!(front.listener.pending(), 1);
    assert_eq!(front.segment(14, 0, &opening), Err(Refusal::NotARepeat));
    let other = seg(PORT + 1, 1, 0, SYN, &fast_open(&right()), b"xy");
    assert_eq!(verdict(front.segment(14, 0, &other)), Some(Verdict::Plain));
    assert_eq!(front.listener.pending(), 1);
    // At its very end it counts no more, and the name is new again.
    assert_eq!(verdict(front.segment(15, 0, &opening)), Some(Verdict::Early));
    assert_eq!(front.listener.pending(), 1);
}

#[test]
fn full_table() {
    let mut front = Box64::with(Settings { limit: 64, ..SETTINGS });
    for port in 0..64 {
        assert_eq!(verdict(front.open(port, 1, &right(), b"")), Some(Verdict::Early));
    }
    assert_eq!(front.listener.pending(), 64);
    assert_eq!(front.open(64, 1, &right(), b""), Err(Refusal::TableFull));
    assert_eq!(verdict(front.open(63, 1, &right(), b"")), Some(Verdict::Repeat));
    assert_eq!(front.open(63, 2, &right(), b""), Err(Refusal::NotARepeat));
    front.listener.abandon(0, &PEER, 10).unwrap();
    assert_eq!(verdict(front.open(64, 1, &right(), b"")), Some(Verdict::Early));
}

#[test]
fn refusal_order() {
    // Each damage alone gives its number; all damages from one on give that one's.
    let order: [(Refusal, fn(&mut Call)); 8] = [
        (Refusal::Time, |call| call.time = 4),
        (Refusal::Address, |call| call.source = vec![0; 16]),
        (Refusal::Output, |call| call.out = 35),
        (Refusal::Malformed, |call| call.segment.truncate(19)),
        (Refusal::Checksum, |call| call.spoil_sum = true),
        (Refusal::Port, |call| call.port = 444),
        (Refusal::Flags, |call| call.flags = SYN | ACK),
        (Refusal::NotARepeat, |call| call.irs = 2),
    ];
    for first in 0..order.len() {
        for last in first + 1..=order.len() {
            let mut call = Call::new();
            order[first..last].iter().for_each(|(_, damage)| damage(&mut call));
            assert_eq!(call.run(), Some(order[first].0), "{first} to {last}");
        }
    }
    assert_eq!(Call::new().run(), None);
    // The rest of the order, where a call has both.
    let mut front = Box64::with(SETTINGS);
    let wrong = Settings { mss: 1461, ..SETTINGS };
    front.listener.settings(5, SETTINGS).unwrap();
    assert_eq!(front.listener.settings(4, wrong), Err(Refusal::Time));
    assert_eq!(front.listener.settings(5, wrong), Err(Refusal::Range));
    assert_eq!(front.listener.resend(5, &[], PORT, &mut []), Err(Refusal::Address));
    assert_eq!(front.listener.resend(5, &PEER, PORT, &mut []), Err(Refusal::Output));
    assert_eq!(front.listener.resend(5, &PEER, PORT, &mut [0; 36]), Err(Refusal::NoSuchConnection));
    assert_eq!(Listener::start(&[], 443, &[]).err(), Some(Refusal::Address));
    assert_eq!(Listener::start(&OWN, 443, &[]).err(), Some(Refusal::Range));

    let mut listener = Listener::never_started();
    let refused = listener.segment(u64::MAX, &[], 0, &[], &mut []);
    assert_eq!(refused, Err(Refusal::NeverStarted));
    assert_eq!(listener.resend(u64::MAX, &[], 0, &mut []), Err(Refusal::NeverStarted));
    assert_eq!(listener.pending(), 0);
}

/// A repeat that is done as it stands, at a clock of 5.
struct Call {
    time: u64,
    source: Vec<u8>,
    out: usize,
    segment: Vec<u8>,
    spoil_sum: bool,
    port: u16,
    flags: u8,
    irs: u32,
}

impl Call {
    fn new() -> Call {
        let segment = seg(PORT, 1, 0, SYN, &[], &[]);
        Call {
            time: 5,
            source: PEER.to_vec(),
            out: 36,
            segment,
            spoil_sum: false,
            port: 443,
            flags: SYN,
            irs: 1,
        }
    }

    fn run(mut self) -> Option<Refusal> {
        let mut front = Box64::with(SETTINGS);
        front.segment(5, 9, &seg(PORT, 1, 0, SYN, &[], &[])).unwrap();
        self.segment[2..4].copy_from_slice(&self.port.to_be_bytes());
        self.segment[4..8].copy_from_slice(&self.irs.to_be_bytes());
        self.segment[13] = self.flags;
        self.segment[16..18].fill(0);
        let sum = wire::checksum(&self.source, &OWN, &self.segment);
        self.segment[16..18].copy_from_slice(&sum.to_be_bytes());
        self.segment[17] ^= u8::from(self.spoil_sum);
        let mut out = vec![0xa5; self.out];
        let reply = front.listener.segment(self.time, &self.source, 9, &self.segment, &mut out);
        if reply.is_err() {
            assert!(out.iter().all(|&b| b == 0xa5));
            assert_eq!(front.listener.front().unwrap().clock(), 5);
        }
        reply.err()
    }
}

#[test]
fn segment_kinds() {
    for flags in 0..=255u8 {
        let mut front = Box64::with(SETTINGS);
        let number = match front.segment(0, 0, &seg(PORT, 1, 0, flags, &[], &[])) {
            Ok(reply) => {
                assert_eq!(reply.kind, Kind::Opening(Verdict::Plain));
                0
            }
            Err(refusal) => refusal.number(),
        };
        let has = |bit: u8| flags & bit != 0;
        let expected = match (has(SYN), has(ACK), has(RST), has(FIN)) {
            (true, false, false, false) => 0,
            (false, _, true, _) | (false, true, false, _) => 9,
            _ => 6,
        };
        assert_eq!(number, expected, "{flags:08b}");
    }
}

#[test]
fn times() {
    let mut front = Box64::with(SETTINGS);
    assert_eq!(front.listener.key(LAST_TIME + 1, &KEY), Err(Refusal::Time));
    assert_eq!(front.listener.key(7, &KEY), Ok(()));
    assert_eq!(front.listener.key(6, &KEY), Err(Refusal::Time));
    assert_eq!(front.listener.key(LAST_TIME, &KEY[..15]), Err(Refusal::Range));
    assert_eq!(front.listener.key(8, &KEY), Ok(()));
    assert_eq!(front.listener.key(LAST_TIME, &KEY), Ok(()));
    assert_eq!(front.listener.key(LAST_TIME, &KEY), Ok(()));
    assert_eq!(front.listener.key(u64::MAX, &[]), Err(Refusal::Time));
}

// The share

/// A front of either family, and segments from any address with their own numbers.
struct Site {
    listener: Listener,
    own: Vec<u8>,
    out: [u8; LEAST_OUTPUT],
}

/// The number of every opening at a site, and ours.
const THEIRS: u32 = 7;
const OURS: u32 = 1000;

impl Site {
    fn with(family: usize, settings: Settings) -> Site {
        let own = vec![9; family];
        let mut listener = Listener::start(&own, 443, &KEY).unwrap();
        listener.settings(0, settings).unwrap();
        Site { listener, own, out: [0xa5; LEAST_OUTPUT] }
    }

    fn set(&mut self, settings: Settings) {
        let clock = self.listener.front().unwrap().clock();
        self.listener.settings(clock, settings).unwrap();
    }

    fn segment(
        &mut self,
        time: u64,
        source: &[u8],
        header: Header,
        options: &[u8],
        payload: &[u8],
    ) -> Result<Reply, Refusal> {
        let mut segment = [&[0; 20], options, payload].concat();
        wire::finish(&mut segment, &header, options.len(), source, &self.own);
        self.out.fill(0xa5);
        self.listener.segment(time, source, OURS, &segment, &mut self.out)
    }

    /// An opening with one byte: its verdict and how long its answer is.
    fn open_with(
        &mut self,
        time: u64,
        source: &[u8],
        port: u16,
        options: &[u8],
    ) -> Result<(Verdict, usize), Refusal> {
        let reply = self.segment(time, source, header(port, THEIRS, SYN), options, b"x")?;
        let Kind::Opening(verdict) = reply.kind else { panic!("no opening: {reply:?}") };
        assert_eq!(reply.accepted, usize::from(verdict == Verdict::Early));
        Ok((verdict, reply.written))
    }

    /// One with the address's right cookie.
    fn open(&mut self, time: u64, source: &[u8], port: u16) -> Result<(Verdict, usize), Refusal> {
        self.open_with(time, source, port, &fast_open(&cookie(&KEY, source)))
    }

    /// So many of them at time 0, which are early, from port 0 on.
    fn fill(&mut self, source: &[u8], count: u16) {
        for port in 0..count {
            assert_eq!(self.open(0, source, port), EARLY, "{port}");
        }
    }

    /// Completes or resets an early one.
    fn finish(&mut self, time: u64, source: &[u8], port: u16, flags: u8) {
        self.segment(time, source, header(port, THEIRS + 2, flags), &[], &[]).unwrap();
    }
}

fn header(port: u16, sequence: u32, flags: u8) -> Header {
    Header { source_port: port, destination_port: 443, sequence, acknowledgement: OURS + 1, flags }
}

const EARLY: Result<(Verdict, usize), Refusal> = Ok((Verdict::Early, 24));
const PLAIN: Result<(Verdict, usize), Refusal> = Ok((Verdict::Plain, 24));
const REPEAT: Result<(Verdict, usize), Refusal> = Ok((Verdict::Repeat, 24));
/// Plain, with a fresh cookie.
const ANSWERED: Result<(Verdict, usize), Refusal> = Ok((Verdict::Plain, 36));
/// A limit that is out of the way, so that the share decides.
const SHARED: Settings = Settings { limit: 64, share: 8, ..SETTINGS };

/// Two addresses of each family.
fn hospitals() -> [[Vec<u8>; 2]; 2] {
    [4, 16].map(|family| [1, 2].map(|n| vec![n; family]))
}

#[test]
fn forty_analysers_on_monday() {
    for [one, other] in hospitals() {
        for (coding, settings) in COUNTED {
            let option = |source: &[u8]| coded(coding, &cookie(&KEY, source));
            let mut site = Site::with(one.len(), Settings { limit: 64, share: 8, ..settings });
            assert_eq!(site.open_with(0, &one, 99, &coded(coding, &[])), ANSWERED);
            assert_eq!(site.out[24..36], coded(coding, &cookie(&KEY, &one)));
            for port in 0..40 {
                let expected = if port < 8 { EARLY } else { PLAIN };
                assert_eq!(site.open_with(0, &one, port, &option(&one)), expected, "{port}");
            }
            assert_eq!(site.listener.pending(), 8);
            assert_eq!(site.open_with(0, &other, 0, &option(&other)), EARLY);
            assert_eq!(site.listener.pending(), 9);
        }
    }
}

#[test]
fn a_fresh_share_is_the_whole_table() {
    let started = Listener::start(&OWN, 443, &KEY).unwrap();
    assert_eq!(started.front().unwrap().current_settings().share, 64);
    for share in [1, 2, 63, 64] {
        let [one, other] = &hospitals()[0];
        let mut site = Site::with(4, Settings { share, ..SHARED });
        site.fill(one, share as u16);
        let past = site.open(0, one, 1000);
        assert_eq!(past, if share == 64 { Err(Refusal::TableFull) } else { PLAIN }, "{share}");
        let last = site.open(0, other, 0);
        assert_eq!(last, if share >= 63 { Err(Refusal::TableFull) } else { EARLY }, "{share}");
    }
}

#[test]
fn share_range() {
    let [one, _] = &hospitals()[0];
    let mut site = Site::with(4, Settings { share: 1, ..SHARED });
    site.fill(one, 1);
    for share in [0, 65, 66, 257, 65_537, u32::MAX] {
        let wrong = Settings { share, on: false, ..SHARED };
        assert_eq!(site.listener.settings(5, wrong), Err(Refusal::Range), "{share}");
        assert_eq!(site.listener.settings(LAST_TIME + 1, wrong), Err(Refusal::Time), "{share}");
        let mut never = Listener::never_started();
        assert_eq!(never.settings(0, wrong), Err(Refusal::NeverStarted), "{share}");
    }
    let front = site.listener.front().unwrap();
    assert_eq!((front.clock(), front.current_settings().share), (0, 1), "nothing has changed");
    assert_eq!(site.open(0, one, 1), PLAIN);
    for share in 1..=64 {
        assert_eq!(site.listener.settings(0, Settings { share, ..SHARED }), Ok(()), "{share}");
    }
    assert_eq!(site.open(0, one, 2), EARLY);
}

#[test]
fn the_share_is_by_address() {
    for [one, other] in hospitals() {
        let mut site = Site::with(one.len(), Settings { share: 1, ..SHARED });
        site.fill(&one, 1);
        assert_eq!(site.open(0, &one, 1), PLAIN, "another port is no other address");
        assert_eq!(site.open(0, &other, 0), EARLY, "the same port is not the same address");
        assert_eq!(site.open(0, &other, 1), PLAIN);
        // Every bit of the address tells.
        for bit in 0..8 * one.len() {
            let mut near = one.clone();
            near[bit / 8] ^= 1 << (bit % 8);
            assert_eq!(site.open(0, &near, 0), EARLY, "{bit}");
            assert_eq!(site.open(0, &near, 1), PLAIN, "{bit}");
            for port in [0, 1] {
                site.listener.abandon(0, &near, port).unwrap();
            }
        }
        assert_eq!(site.open(0, &one, 2), PLAIN);
    }
}

#[test]
fn no_cookie_from_the_share_up() {
    let other_key = [9; 16];
    for [one, other] in hospitals() {
        let right = cookie(&other_key, &one);
        // What is offered, and what it gets below the share; from there up it is all the same.
        let offers = [
            (fast_open(&right), EARLY),
            (fast_open(&[]), ANSWERED),
            (fast_open(&[7; 8]), ANSWERED),
            (fast_open(&[7; 4]), ANSWERED),
            (fast_open(&cookie(&other_key, &other)), ANSWERED),
            (fast_open(&cookie(&KEY, &one)), Ok((Verdict::Early, 36))),
            (vec![2, 4, 5, 0xb4], PLAIN),
            (vec![], PLAIN),
        ];
        for (options, below) in offers {
            for (share, expected) in [(3, below), (2, PLAIN), (1, PLAIN)] {
                let mut site = Site::with(one.len(), SHARED);
                site.fill(&one, 2);
                site.listener.key(0, &other_key).unwrap();
                site.set(Settings { share, ..SHARED });
                assert_eq!(site.open_with(0, &one, 50, &options), expected, "{share} {options:?}");
                // Those who were let in are repeats, the plain one too.
                for port in [0, 1, 50] {
                    assert_eq!(site.open_with(0, &one, port, &options), REPEAT, "{share} {options:?}");
                }
                let moved = header(0, THEIRS + 1, SYN);
                let reply = site.segment(0, &one, moved, &options, b"x");
                assert_eq!(reply, Err(Refusal::NotARepeat), "{share} {options:?}");
                // Another address gets its cookie.
                assert_eq!(site.open_with(0, &other, 50, &fast_open(&[])), ANSWERED);
            }
        }
    }
}

#[test]
fn held_ones_count_towards_the_share() {
    for [one, other] in hospitals() {
        let mut site = Site::with(one.len(), Settings { share: 2, hold: 10, ..SHARED });
        site.fill(&one, 2);
        site.finish(5, &one, 0, RST);
        assert_eq!(site.open(5, &one, 10), PLAIN);
        assert_eq!(site.open(14, &one, 11), PLAIN, "one before its end");
        assert_eq!(site.open(14, &other, 11), EARLY);
        assert_eq!(site.open(15, &one, 12), EARLY, "at its end, by the call's own time");
        assert_eq!(site.open(15, &one, 13), PLAIN);
        // Two held ones that end one after the other.
        site.finish(20, &one, 1, RST);
        site.finish(22, &one, 12, RST);
        assert_eq!(site.open(29, &one, 14), PLAIN);
        assert_eq!(site.open(31, &one, 15), EARLY, "one after the first's end");
        assert_eq!(site.open(31, &one, 16), PLAIN);
        assert_eq!(site.open(32, &one, 17), EARLY);
        assert_eq!(site.open(32, &one, 18), PLAIN);
        // Without a hold there is room at once.
        site.set(Settings { share: 2, ..SHARED });
        site.finish(32, &one, 15, RST);
        assert_eq!(site.open(32, &one, 19), EARLY);
    }
}

#[test]
fn only_pending_ones_count_towards_the_share() {
    for [one, _] in hospitals() {
        let mut site = Site::with(one.len(), Settings { share: 1, hold: 10, ..SHARED });
        // Plain ones and open ones are no part of it.
        for port in 100..103 {
            assert_eq!(site.open_with(0, &one, port, &[]), PLAIN);
        }
        site.fill(&one, 1);
        site.finish(0, &one, 0, ACK);
        assert_eq!(site.open(0, &one, 1), EARLY, "completed");
        assert_eq!(site.open(0, &one, 2), PLAIN);
        site.listener.close(0, &one, 0).unwrap();
        assert_eq!(site.open(0, &one, 3), PLAIN, "a closed one had made room before");
        site.listener.abandon(0, &one, 2).unwrap();
        assert_eq!(site.open(0, &one, 4), PLAIN, "a plain one had taken none");
        site.listener.abandon(0, &one, 1).unwrap();
        assert_eq!(site.open(0, &one, 5), EARLY, "abandoned");
        assert_eq!(site.open(0, &one, 6), PLAIN);
    }
}

#[test]
fn a_lowered_share_touches_no_slot() {
    for [one, other] in hospitals() {
        let mut site = Site::with(one.len(), SHARED);
        site.fill(&one, 5);
        site.set(Settings { share: 2, ..SHARED });
        assert_eq!(site.listener.pending(), 5);
        assert_eq!(site.open(0, &one, 0), REPEAT);
        assert_eq!(site.open(0, &one, 10), PLAIN);
        assert_eq!(site.open(0, &other, 10), EARLY);
        for (port, left) in [(0, 4), (1, 3), (2, 2), (3, 1)] {
            site.listener.abandon(0, &one, port).unwrap();
            let expected = if left < 2 { EARLY } else { PLAIN };
            assert_eq!(site.open(0, &one, 20 + port), expected, "{left}");
        }
        // Raised by one, there is room for one.
        assert_eq!(site.open(0, &one, 30), PLAIN);
        site.set(Settings { share: 3, ..SHARED });
        assert_eq!(site.open(0, &one, 30), REPEAT, "what was plain stays so");
        assert_eq!(site.listener.pending(), 3);
        assert_eq!(site.open(0, &one, 31), EARLY);
        assert_eq!(site.open(0, &one, 32), PLAIN);
    }
}

#[test]
fn limit_and_share_both_hold() {
    for [one, other] in hospitals() {
        // The limit first.
        let mut site = Site::with(one.len(), Settings { limit: 2, share: 3, ..SHARED });
        site.fill(&one, 2);
        for source in [&one, &other] {
            assert_eq!(site.open(0, source, 10), PLAIN);
            assert_eq!(site.open_with(0, source, 11, &fast_open(&[])), PLAIN);
        }
        // Both at once, then the share first.
        for (limit, expected, asking) in [(2, PLAIN, PLAIN), (3, EARLY, ANSWERED)] {
            let mut site = Site::with(one.len(), Settings { limit, share: 2, ..SHARED });
            site.fill(&one, 2);
            assert_eq!(site.open(0, &one, 10), PLAIN);
            assert_eq!(site.open_with(0, &one, 11, &fast_open(&[])), PLAIN);
            assert_eq!(site.open_with(0, &other, 11, &fast_open(&[])), asking, "{limit}");
            assert_eq!(site.open(0, &other, 10), expected, "{limit}");
        }
        // Off, no share lets anyone in.
        let mut site = Site::with(one.len(), Settings { on: false, share: 64, ..SHARED });
        assert_eq!(site.open(0, &one, 0), PLAIN);
    }
}

// The client

struct Caller {
    client: Client,
    out: Vec<u8>,
    /// Under which answers are read.
    codings: Codings,
}

fn attempt(server: &[u8], port: u16) -> Attempt<'_> {
    Attempt { own: &PEER, own_port: PORT, server, server_port: port, ours: u32::MAX }
}

fn server(n: u8) -> [u8; 4] {
    [10, 0, 0, n]
}

impl Caller {
    fn new() -> Caller {
        Caller { client: Client::start(4).unwrap(), out: vec![0xa5; CLIENT_OUTPUT], codings: Codings::New }
    }

    /// Opens with ten bytes on offer; gives the written length.
    fn open(&mut self, time: u64, n: u8, port: u16) -> usize {
        let to = server(n);
        self.client.open(time, &attempt(&to, port), 1460, &[7; 10], &mut self.out).unwrap().written
    }

    /// What follows the size in such an opening; nothing where the server is banned.
    fn opening(&mut self, time: u64, n: u8, port: u16) -> Vec<u8> {
        let written = self.open(time, n, port);
        self.out[24..written].to_vec()
    }

    fn learn(
        &mut self,
        time: u64,
        n: u8,
        options: &[u8],
        sent: u32,
        acknowledged: u32,
    ) -> Result<u32, Refusal> {
        let from = server(n);
        let segment = answer(&from, &PEER, options, acknowledged);
        let learnt = self.client.answer(time, &attempt(&from, 443), sent, &segment, self.codings);
        learnt.map(|learnt| learnt.acknowledged)
    }
}

fn answer(from: &[u8], to: &[u8], options: &[u8], acknowledgement: u32) -> Vec<u8> {
    flagged_answer(SYN | ACK, from, to, options, acknowledgement)
}

fn flagged_answer(flags: u8, from: &[u8], to: &[u8], options: &[u8], acknowledgement: u32) -> Vec<u8> {
    let mut segment = vec![0; 20];
    segment.extend_from_slice(options);
    let header = Header { source_port: 443, destination_port: PORT, sequence: 5, acknowledgement, flags };
    wire::finish(&mut segment, &header, options.len(), from, to);
    segment
}

const BANNED: usize = 24;
const ASKING: usize = 28;
const WITH_DATA: usize = 36 + 10;

#[test]
fn cookies_are_used_and_sized() {
    let mut caller = Caller::new();
    assert_eq!(caller.open(0, 1, 443), ASKING);
    assert_eq!(caller.out[20..28], [2, 4, 5, 0xb4, 34, 2, 1, 1]);
    // ours is 2^32 - 1, so an acknowledgement of 0 acknowledges no data
    assert_eq!(caller.learn(0, 1, &fast_open(&[3; 8]), 0, 0), Ok(0));
    assert_eq!(caller.open(0, 1, 443), WITH_DATA);
    assert_eq!(caller.out[24..36], [34, 10, 3, 3, 3, 3, 3, 3, 3, 3, 1, 1]);
    assert_eq!(caller.out[36..46], [7; 10]);
    assert_eq!(caller.learn(0, 1, &[2, 4, 0, 20], 0, 0), Ok(0));
    assert_eq!(caller.open(0, 1, 443), 40, "the stored size rules, the cookie stays");
    assert_eq!(caller.learn(0, 1, &[2, 4, 0, 0], 0, 0), Ok(0));
    assert_eq!(caller.open(0, 1, 443), 36, "a size of nothing was seen");
    assert_eq!(caller.learn(0, 1, &fast_open(&[4; 16]), 0, 0), Ok(0));
    assert_eq!(caller.open(0, 1, 443), 44, "18 bytes and two of padding");
    assert_eq!(caller.open(0, 2, 443), ASKING, "other servers are others");
}

/// How many bytes go with an opening, after an answer with this size and a cookie of this
/// length; the cookie goes in any case.
fn goes(family: usize, size: Option<u16>, cookie: usize, offered: usize) -> usize {
    let (own, server) = (vec![1; family], vec![2; family]);
    let attempt = Attempt { own: &own, own_port: PORT, server: &server, server_port: 443, ours: 9 };
    let cookie = fast_open(&vec![3; cookie]);
    let mut options = size.map_or(Vec::new(), |size| wire::mss_option(size).to_vec());
    options.extend_from_slice(&cookie);
    let mut client = Client::start(family as u64).unwrap();
    client.answer(0, &attempt, 0, &answer(&server, &own, &options, 10), Codings::New).unwrap();

    let mut out = [0xa5; CLIENT_OUTPUT];
    let opened = client.open(0, &attempt, 1460, &vec![7; offered], &mut out).unwrap();
    let data_at = 24 + cookie.len();
    assert_eq!(out[20..24], [2, 4, 5, 0xb4]);
    assert_eq!(out[24..data_at], cookie);
    assert_eq!(opened.written, data_at + opened.sent);
    assert!(out[data_at..opened.written].iter().all(|&b| b == 7));
    assert!(out[opened.written..].iter().all(|&b| b == 0xa5));
    opened.sent
}

#[test]
fn options_come_off_the_data() {
    for (family, size, room) in [
        (4, Some(1460), 1444),
        (4, Some(1461), 1444),
        (4, Some(u16::MAX), 1444),
        (4, Some(1459), 1443),
        (4, Some(536), 520),
        (4, None, 520),
        (16, Some(1440), 1424),
        (16, Some(1441), 1424),
        (16, Some(1460), 1424),
        (16, Some(1439), 1423),
        (16, Some(536), 520),
        (16, None, 1204),
    ] {
        for offered in [0, 1, room - 1, room, room + 1, 1600] {
            assert_eq!(goes(family, size, 8, offered), offered.min(room), "{family} {size:?} {offered}");
        }
    }
    for (cookie, options) in [(4, 12), (6, 12), (8, 16), (10, 16), (12, 20), (14, 20), (16, 24)] {
        for family in [4, 16] {
            let most = if family == 4 { 1460 } else { 1440 };
            assert_eq!(goes(family, Some(most), cookie, 1600), usize::from(most) - options);
            // where they don't fit, or just fit, nothing goes
            for size in 0..=options {
                assert_eq!(goes(family, Some(size as u16), cookie, 40), 0, "{cookie} {size}");
            }
            for room in 1..=3 {
                assert_eq!(goes(family, Some((options + room) as u16), cookie, 40), room);
            }
        }
    }
}

#[test]
fn answers_are_checked() {
    let mut caller = Caller::new();
    assert_eq!(caller.learn(0, 1, &[], 1461, 0), Err(Refusal::Range));
    assert_eq!(caller.learn(0, 1, &[], 1460, 1460), Ok(1460));
    assert_eq!(caller.learn(0, 1, &[], 1460, 1461), Err(Refusal::Number));
    assert_eq!(caller.learn(0, 1, &[], 1460, u32::MAX), Err(Refusal::Number));
    assert_eq!(caller.open(0, 1, 443), ASKING, "no ban so far");
    assert_eq!(caller.learn(0, 1, &fast_open(&[3; 8]), 0, 0), Ok(0));
    assert_eq!(caller.learn(0, 1, &[], 5, 0), Ok(0));
    assert_eq!(caller.open(0, 1, 443), BANNED, "data was sent, none acknowledged");
    assert_eq!(caller.open(0, 1, 444), WITH_DATA, "bans go by port too");
    assert_eq!(caller.open(BAN_MS - 1, 1, 443), BANNED);
    assert_eq!(caller.open(BAN_MS, 1, 443), WITH_DATA);
    let small = &mut [0xa5; CLIENT_OUTPUT - 1];
    let to = server(1);
    let refused = caller.client.open(BAN_MS, &attempt(&to, 1), 0, &[], small);
    assert_eq!(refused, Err(Refusal::Output));
    assert_eq!(Client::start(5).err(), Some(Refusal::Address));
    assert_eq!(Client::never_started().failed(0, &to, 1), Err(Refusal::NeverStarted));
}

#[test]
fn answers_tell() {
    let from = server(1);
    for (settings, reading) in TOLD {
        let area = telling(&[3; 8]);
        for (options, reading) in SAMPLES.into_iter().chain([(&area[..], reading)]) {
            for (sent, acknowledged) in [(0, 0), (5, 0), (5, 5)] {
                let mut client = Client::start(4).unwrap();
                let segment = answer(&from, &PEER, options, acknowledged);
                let learnt = client.answer(0, &attempt(&from, 443), sent, &segment, settings.codings);
                assert_eq!(learnt, Ok(Learnt { acknowledged, reading }), "{options:?}");
            }
        }
    }
}

/// What follows the size in an opening with this cookie.
fn early(cookie: &[u8]) -> Vec<u8> {
    [fast_open(cookie), vec![7; 10]].concat()
}

/// The options of an answer in a coding, and the cookie that it brings if that coding counts.
fn answers_in(coding: Coding, old: &[u8], new: &[u8]) -> Vec<(Vec<u8>, Option<Vec<u8>>)> {
    let (old, new) = (old.to_vec(), new.to_vec());
    let [request, skipped, again, cookie] = [&[][..], &[3; 7], &old, &new].map(|c| coded(coding, c));
    let mut answers = vec![
        (vec![], None),
        (vec![2, 4, 5, 0xb4], None),
        ([&request[..], &cookie].concat(), None),
        ([&[0; 4][..], &cookie].concat(), None),
        (cookie[..8].to_vec(), None),
        ([&skipped[..], &cookie].concat(), Some(new.clone())),
        ([&cookie[..], &request].concat(), Some(new.clone())),
        ([&cookie[..], &again].concat(), Some(new)),
        (again, Some(old)),
    ];
    for length in 0..=40 - coding.prefix() {
        let counted = (4..=16).contains(&length) && length % 2 == 0;
        answers.push((coded(coding, &vec![3; length]), counted.then(|| vec![3; length])));
    }
    answers
}

#[test]
fn an_answer_with_a_cookie_sets_no_ban() {
    let (old, new) = ([9; 8], [3; 8]);
    // Answers, and the cookie each brings.
    let mut answers = Vec::new();
    for (coding, settings) in COUNTED {
        let brought = answers_in(coding, &old, &new).into_iter();
        answers.extend(brought.map(|(options, brought)| (options, settings.codings, brought)));
    }
    let unknown = answers_in(Coding::Older, &old, &new).into_iter();
    answers.extend(unknown.map(|(options, _)| (options, Codings::New, None)));
    let [skipped, other] = [[254, 6, 0xf9, 0x89, 3, 3, 1, 1], [254, 8, 0xf9, 0x88, 3, 3, 3, 3]];
    for (first, both, new_only) in [
        (&skipped[..], Some(new.to_vec()), Some(new.to_vec())),
        (&other, Some(new.to_vec()), Some(new.to_vec())),
        (&older(&[]), None, Some(new.to_vec())),
        (&older(&[4; 16]), Some(vec![4; 16]), Some(new.to_vec())),
    ] {
        let options = [first, &fast_open(&new)].concat();
        answers.push((options.clone(), Codings::Both, both));
        answers.push((options, Codings::New, new_only));
    }
    answers.push(([fast_open(&[]), older(&new)].concat(), Codings::Both, None));
    answers.push(([&[34, 4, 3, 3], &older(&new)[..]].concat(), Codings::Both, Some(new.to_vec())));
    for (options, codings, brought) in answers {
        let stored = brought.as_deref().unwrap_or(&old);
        for (sent, acknowledged) in [(0, 0), (1, 0), (1460, 0), (1, 1), (5, 1), (5, 5)] {
            let mut caller = Caller::new();
            caller.learn(0, 1, &fast_open(&old), 0, 0).unwrap();
            caller.codings = codings;
            assert_eq!(caller.learn(0, 1, &options, sent, acknowledged), Ok(acknowledged));
            let banned = sent > 0 && acknowledged == 0 && brought.is_none();
            let expected = if banned { vec![] } else { early(stored) };
            assert_eq!(caller.opening(0, 1, 443), expected, "{options:?} {codings:?} {sent} {acknowledged}");
            assert_eq!(caller.opening(0, 1, 444), early(stored), "a ban goes by port, a cookie doesn't");
        }
    }
}

#[test]
fn a_cookie_leaves_bans_as_they_are() {
    // Without one the end moves.
    for (brought, stored, end) in [(&[3; 8][..], [3; 8], 1 + BAN_MS), (&[], [9; 8], 2 + BAN_MS)] {
        let mut caller = Caller::new();
        caller.learn(0, 1, &fast_open(&[9; 8]), 5, 0).unwrap();
        for port in [443, 444] {
            assert_eq!(caller.opening(1, 1, port), early(&[9; 8]));
            caller.client.failed(1, &server(1), port).unwrap();
        }
        caller.learn(2, 1, &fast_open(brought), 5, 0).unwrap();
        for (time, port, banned) in [
            (2, 443, true),
            (2, 444, true),
            (2, 445, false),
            (BAN_MS, 444, true),
            (end - 1, 443, true),
            (1 + BAN_MS, 444, false),
            (end, 443, false),
        ] {
            let expected = if banned { vec![] } else { early(&stored) };
            assert_eq!(caller.opening(time, 1, port), expected, "{brought:?} {time} {port}");
        }
    }
}

/// A handshake with ten bytes on offer: what the front made of the opening, and how many
/// bytes the client saw acknowledged.
fn handshake(caller: &mut Caller, front: &mut Box64, own_port: u16) -> (Option<Verdict>, u32) {
    let attempt = Attempt { own_port, ..attempt(&OWN, 443) };
    let opened = caller.client.open(0, &attempt, 1460, &[7; 10], &mut caller.out).unwrap();
    let reply = front.segment(0, 1000, &caller.out[..opened.written]);
    let written = reply.unwrap().written;
    let answer = &front.out[..written];
    let learnt = caller.client.answer(0, &attempt, opened.sent as u32, answer, caller.codings);
    (verdict(reply), learnt.unwrap().acknowledged)
}

/// An opening that asks in the older coding, and its answer shown to a client that reads
/// answers under this setting.
fn asked_in_the_older_coding(codings: Codings) -> (Caller, Box64) {
    let mut caller = Caller { codings, ..Caller::new() };
    let mut front = Box64::coded(Coding::Older, BOTH);
    let attempt = Attempt { ours: 7, ..attempt(&OWN, 443) };
    let reply = front.open(PORT, attempt.ours, &[], &[]).unwrap();
    assert_eq!(front.out[..reply.written], OLDER_COOKIE);
    let learnt = caller.client.answer(0, &attempt, 0, &front.out, codings);
    let used = if codings == Codings::Both { 5 } else { 0 };
    assert_eq!(learnt, Ok(Learnt { acknowledged: 0, reading: told(0, used, 0) }));
    (caller, front)
}

#[test]
fn a_cookie_learnt_in_the_older_coding() {
    // It is the same cookie, and goes out in kind 34, whichever codings the front reads.
    for settings in [SETTINGS, BOTH] {
        let (mut caller, mut front) = asked_in_the_older_coding(Codings::Both);
        front.listener.settings(0, settings).unwrap();
        assert_eq!(handshake(&mut caller, &mut front, 1), (Some(Verdict::Early), 10));
        assert_eq!(caller.out[24..36], fast_open(&right()));
    }
    // Under new only there was none, so one is asked for, in kind 34.
    let (mut caller, mut front) = asked_in_the_older_coding(Codings::New);
    assert_eq!(handshake(&mut caller, &mut front, 1), (Some(Verdict::Plain), 0));
    assert_eq!(caller.out[24..28], [34, 2, 1, 1]);
    assert_eq!(front.out[24..], fast_open(&right()));
}

#[test]
fn the_setting_is_that_of_each_answer() {
    let mut caller = Caller { codings: Codings::Both, ..Caller::new() };
    caller.learn(0, 1, &older(&[3; 8]), 5, 0).unwrap();
    assert_eq!(caller.opening(0, 1, 443), early(&[3; 8]), "brought, so no ban");
    caller.codings = Codings::New;
    caller.learn(0, 1, &older(&[4; 8]), 0, 0).unwrap();
    assert_eq!(caller.opening(0, 1, 443), early(&[3; 8]), "an unknown option brings nothing");
    caller.learn(0, 1, &[&[2, 4, 0, 20], &older(&[4; 8])[..]].concat(), 5, 0).unwrap();
    assert_eq!(caller.open(0, 1, 443), BANNED, "and doesn't keep a ban away");
    assert_eq!(caller.open(0, 1, 444), 36 + 4, "though the size is learnt");
    caller.codings = Codings::Both;
    caller.learn(1, 1, &older(&[4; 8]), 5, 0).unwrap();
    assert_eq!(caller.open(BAN_MS - 1, 1, 443), BANNED, "a cookie leaves the ban as it is");
    assert_eq!(caller.open(BAN_MS, 1, 443), 36 + 4);
    assert_eq!(caller.out[24..36], fast_open(&[4; 8]));
}

#[test]
fn the_older_coding_makes_recent() {
    for (codings, options, recent) in [
        (Codings::Both, older(&[4; 8]), true),
        (Codings::Both, older(&[]), false),
        (Codings::Both, vec![254, 6, 0xf9, 0x89, 1, 2, 1, 1], false),
        (Codings::Both, vec![254, 8, 0xf9, 0x88, 1, 2, 3, 4], false),
        (Codings::New, older(&[4; 8]), false),
    ] {
        let mut caller = Caller { codings, ..Caller::new() };
        for n in 0..32 {
            caller.learn(0, n, &fast_open(&[3; 8]), 0, 0).unwrap();
        }
        caller.learn(0, 0, &options, 0, 0).unwrap();
        caller.learn(0, 32, &fast_open(&[3; 8]), 0, 0).unwrap();
        let (kept, forgotten) = if recent { (0, 1) } else { (1, 0) };
        assert_eq!(caller.open(0, kept, 443), WITH_DATA, "{codings:?} {options:?}");
        assert_eq!(caller.open(0, forgotten, 443), ASKING, "{codings:?} {options:?}");
    }
}

#[test]
fn two_key_changes_behind() {
    let (mut caller, mut front) = (Caller::new(), Box64::with(SETTINGS));
    assert_eq!(handshake(&mut caller, &mut front, 1), (Some(Verdict::Plain), 0), "asks for a cookie");
    assert_eq!(handshake(&mut caller, &mut front, 2), (Some(Verdict::Early), 10));
    front.listener.key(0, &[1; 16]).unwrap();
    front.listener.key(0, &[2; 16]).unwrap();
    assert_eq!(handshake(&mut caller, &mut front, 3), (Some(Verdict::Plain), 0), "right under neither key");
    assert_eq!(handshake(&mut caller, &mut front, 4), (Some(Verdict::Early), 10), "with the fresh cookie");
}

#[test]
fn least_recently_stored_is_forgotten() {
    let mut caller = Caller::new();
    for n in 0..32 {
        caller.learn(0, n, &fast_open(&[3; 8]), 0, 0).unwrap();
    }
    // Storing makes 0 most recent; opening to 1, or an answer with nothing in it, doesn't.
    caller.learn(0, 0, &[2, 4, 5, 0xb4], 0, 0).unwrap();
    assert_eq!(caller.open(0, 1, 443), WITH_DATA);
    caller.learn(0, 1, &fast_open(&[]), 0, 0).unwrap();
    caller.learn(0, 32, &fast_open(&[3; 8]), 0, 0).unwrap();
    assert_eq!(caller.open(0, 0, 443), WITH_DATA);
    assert_eq!(caller.open(0, 1, 443), ASKING);
    assert_eq!(caller.open(0, 2, 443), WITH_DATA);
    assert_eq!(caller.open(0, 32, 443), WITH_DATA);
    // A cookie makes 2 most recent though none of the data was acknowledged.
    caller.learn(0, 2, &fast_open(&[3; 8]), 5, 0).unwrap();
    caller.learn(0, 33, &fast_open(&[3; 8]), 0, 0).unwrap();
    assert_eq!(caller.open(0, 2, 443), WITH_DATA);
    assert_eq!(caller.open(0, 3, 443), ASKING);
}

#[test]
fn bans_make_way() {
    let mut caller = Caller::new();
    let ban = |caller: &mut Caller, time: u64, n: u8| caller.client.failed(time, &server(n), 443).unwrap();
    for n in 0..32 {
        ban(&mut caller, if n < 2 { 0 } else { 5 }, n);
    }
    // Ends: 0 and 1 at 600,000, the others at 600,005. Moving 0's end leaves 1 first.
    ban(&mut caller, 6, 0);
    ban(&mut caller, 6, 40);
    assert_eq!(caller.open(6, 1, 443), ASKING);
    assert_eq!(caller.open(6, 0, 443), BANNED);
    // Now thirty end together; the lowest place among them makes way.
    ban(&mut caller, 6, 41);
    assert_eq!(caller.open(6, 2, 443), ASKING);
    assert_eq!(caller.open(6, 3, 443), BANNED);
    // When those have ended, the lowest place that isn't live is taken and nobody makes way.
    ban(&mut caller, 5 + BAN_MS, 42);
    for n in [0, 40, 41, 42] {
        assert_eq!(caller.open(5 + BAN_MS, n, 443), BANNED);
    }
    assert_eq!(caller.open(5 + BAN_MS, 3, 443), ASKING);
}

// The scripts

fn hex(bytes: &[u8]) -> String {
    bytes.iter().map(|byte| format!("{byte:02x}")).collect()
}

fn answers(session: &mut dyn Session, text: &[u8]) -> Vec<String> {
    let mut printed = Vec::new();
    script::run(session, text, &mut printed).unwrap();
    String::from_utf8(printed).unwrap().lines().map(str::to_string).collect()
}

#[test]
fn lines() {
    let mut text = b"\n# note\nkey 0 -\nstart c0000202 443 000102030405060708090a0b0c0d0e0F\n".to_vec();
    text.extend_from_slice(b"settings 0 on 8 1460 1000 1460\nsettings 0 on 8 1460 1000 535\n");
    let bad: [&[u8]; 22] = [
        b"settings 0 ON 8 1460 1000 1460",
        b"settings 0 on 8 1460 1000",
        b"settings 0 on 8 1460 1000 1460 ",
        b"settings 0 on 8 1460 1000 1460 1",
        b"settings 0 on  8 1460 1000 1460",
        b" settings 0 on 8 1460 1000 1460",
        b"settings 0 on 8 1460 1000 1460\r",
        b"settings +0 on 8 1460 1000 1460",
        b"settings 0 on 4294967296 1460 1000 1460",
        b"settings 18446744073709551616 on 8 1460 1000 1460",
        b"key 0 0",
        b"key 0 0g",
        b"key 0 --",
        b"key 0 ",
        b"key - 00",
        b"close 0 c0000201 65536",
        b"resend 0 c0000201 1 2049",
        b"keys 0 00",
        b"\xff",
        b" ",
        b"abandon 0 c0000201",
        b"Start c0000202 443 -",
    ];
    for line in bad {
        text.extend_from_slice(line);
        text.push(b'\n');
    }
    text.extend_from_slice(b"resend 0 C0000201 00001 2048");
    let printed = answers(&mut ListenerSession::new(), &text);
    assert_eq!(printed[0], "13 - - 0 0 0 - - kept 0 0 0");
    assert_eq!(printed[1..3], ["0 - - 0 0 0 - - kept 0 0 0", "0 - - 0 0 0 - - kept 0 0 0"]);
    assert_eq!(printed[3], "12 - - 0 0 0 - - kept 0 0 0");
    assert!(printed[4..26].iter().all(|line| line == "bad line"), "{printed:?}");
    assert_eq!(printed[26..], ["9 - - 0 0 0 - - kept 0 0 0"]);
}

/// Words behind a line that takes the coding setting, and what it is then; `None` for a bad line.
const CODING_WORDS: [(&str, Option<Codings>); 15] = [
    (" both", Some(Codings::Both)),
    ("", Some(Codings::New)),
    (" both", Some(Codings::Both)),
    (" new", Some(Codings::New)),
    (" both", Some(Codings::Both)),
    (" old", None),
    (" NEW", None),
    (" Both", None),
    (" ", None),
    (" both ", None),
    ("  both", None),
    (" both both", None),
    (" both\t", None),
    (" -", None),
    (" newboth", None),
];

#[test]
fn coding_words_of_settings() {
    let mut session = ListenerSession::new();
    session.line(b"start c0000202 443 000102030405060708090a0b0c0d0e0f").unwrap();
    let mut last = Codings::New;
    for (word, codings) in CODING_WORDS {
        let line = format!("settings 0 on 8 1460 1000 1460{word}");
        let printed = session.line(line.as_bytes()).unwrap();
        assert_eq!(
            printed,
            if codings.is_some() { "0 - - 0 0 0 - - kept 0 0 0" } else { "bad line" },
            "{line}"
        );
        last = codings.unwrap_or(last);
        let expected = Settings { hold: 1000, codings: last, ..SETTINGS };
        assert_eq!(session.listener.front().unwrap().current_settings(), expected, "{line}");
    }
    assert_eq!(last, Codings::Both);
    // It has no range of its own, and takes no part in the order of refusals.
    for (line, number) in [
        ("settings 0 on 65 1460 1000 1460 both", "12"),
        ("settings 281474976710657 on 65 1460 1000 1460 new", "5"),
        ("settings 0 both 8 1460 1000 1460", "bad"),
        ("settings 0 on 8 1460 1000 both", "bad"),
        ("key 0 000102030405060708090a0b0c0d0e0f both", "bad"),
        ("start c0000202 443 000102030405060708090a0b0c0d0e0f both", "bad"),
    ] {
        assert!(session.line(line.as_bytes()).unwrap().starts_with(number), "{line}");
    }
    assert_eq!(session.listener.front().unwrap().current_settings().codings, Codings::Both);
}

#[test]
fn coding_words_of_answers() {
    let hex = hex(&answer(&server(1), &PEER, &older(&[3; 8]), 8));
    for (word, codings) in CODING_WORDS {
        let mut session = ClientSession::new();
        session.line(b"start 4").unwrap();
        let line = format!("answer 0 c0000201 40000 0a000001 443 7 5 {hex}{word}");
        let printed = session.line(line.as_bytes()).unwrap();
        let expected = match codings {
            Some(Codings::New) => "0 0 0 - kept 0 0 0",
            Some(Codings::Both) => "0 0 0 - kept 0 1 0",
            None => "bad line",
        };
        assert_eq!(printed, expected, "{line}");
        let memory = session.client.memory().unwrap();
        let stored = if codings == Some(Codings::Both) { &[3; 8][..] } else { &[] };
        assert_eq!(memory.known(&server(1)).0, stored, "{line}");
        assert_eq!(memory.bans().count(), usize::from(codings == Some(Codings::New)), "{line}");
    }
    let mut session = ClientSession::new();
    // A client has no share.
    for word in ["new 64", "both 8", "64"] {
        let line = format!("answer 0 c0000201 40000 0a000001 443 7 5 {hex} {word}");
        assert_eq!(session.line(line.as_bytes()).unwrap(), "bad line", "{line}");
    }
    for line in ["start 4 both", "failed 0 0a000001 443 new", "answer 0 c0000201 40000 0a000001 443 7 5 both"]
    {
        assert_eq!(session.line(line.as_bytes()).unwrap(), "bad line", "{line}");
    }
}

#[test]
fn share_words_of_settings() {
    let mut session = ListenerSession::new();
    session.line(b"start c0000202 443 000102030405060708090a0b0c0d0e0f").unwrap();
    let done = "0 - - 0 0 0 - - kept 0 0 0";
    let refused = "12 - - 0 0 0 - - kept 0 0 0";
    let bad = "bad line";
    let mut last = (Codings::New, 64);
    for (tail, expected, now) in [
        (" both 8", done, Some((Codings::Both, 8))),
        ("", done, Some((Codings::New, 64))),
        (" new 1", done, Some((Codings::New, 1))),
        (" both", done, Some((Codings::Both, 64))),
        (" both 63", done, Some((Codings::Both, 63))),
        (" new", done, Some((Codings::New, 64))),
        (" new 2", done, Some((Codings::New, 2))),
        (" new 64", done, Some((Codings::New, 64))),
        (" both 0000000000000000000000008", done, Some((Codings::Both, 8))),
        (" new 0", refused, None),
        (" both 0", refused, None),
        (" new 65", refused, None),
        (" new 4294967295", refused, None),
        (" new 4294967296", bad, None),
        (" both 4294967304", bad, None),
        (" both 18446744073709551624", bad, None),
        (" 8", bad, None),
        (" 64", bad, None),
        (" 8 both", bad, None),
        (" both 8 8", bad, None),
        (" both 8 both", bad, None),
        (" both new 8", bad, None),
        (" new new", bad, None),
        (" old 8", bad, None),
        ("  8", bad, None),
        (" both ", bad, None),
        (" both 8 ", bad, None),
        (" both  8", bad, None),
        (" both +8", bad, None),
        (" both -1", bad, None),
        (" both 0x8", bad, None),
        (" both -", bad, None),
        (" both 8\r", bad, None),
    ] {
        let line = format!("settings 0 on 8 1460 1000 1460{tail}");
        assert_eq!(session.line(line.as_bytes()).unwrap(), expected, "{line}");
        last = now.unwrap_or(last);
        let (codings, share) = last;
        let settings = Settings { hold: 1000, codings, share, ..SETTINGS };
        assert_eq!(session.listener.front().unwrap().current_settings(), settings, "{line}");
    }
    assert_eq!(last, (Codings::Both, 8));
    // Time comes first, and a share in range doesn't help another number that isn't.
    for (line, number) in [
        ("settings 281474976710657 on 8 1460 1000 1460 new 0", "5 "),
        ("settings 0 on 65 1460 1000 1460 new 8", "12 "),
        ("settings 0 on 8 1460 1000 535 new 8", "12 "),
        ("key 0 000102030405060708090a0b0c0d0e0f 8", "bad "),
        ("start c0000202 443 000102030405060708090a0b0c0d0e0f 8", "bad "),
    ] {
        assert!(session.line(line.as_bytes()).unwrap().starts_with(number), "{line}");
    }
}

#[test]
fn shares_of_lines() {
    // A share of one, in lines; a line without one gives the address its room back.
    let mut session = ListenerSession::new();
    session.line(b"start c0000202 443 000102030405060708090a0b0c0d0e0f").unwrap();
    session.line(b"settings 0 on 8 1460 1000 1460 new 1").unwrap();
    let open = |session: &mut ListenerSession, port| {
        let segment = hex(&seg(port, 7, 0, SYN, &fast_open(&right()), b"x"));
        session.line(format!("segment 0 c0000201 1000 36 {segment}").as_bytes()).unwrap()
    };
    let starts = |printed: String, expected: &str| assert!(printed.starts_with(expected), "{printed}");
    starts(open(&mut session, PORT), "0 opening early 1 24 1 ");
    starts(open(&mut session, PORT + 1), "0 opening plain 0 24 1 ");
    session.line(b"settings 0 on 8 1460 1000 1460").unwrap();
    starts(open(&mut session, PORT + 2), "0 opening early 1 24 2 ");
}

/// The number that a line prints, and what its answer tells.
fn tells(session: &mut dyn Session, line: &str) -> String {
    let printed = session.line(line.as_bytes()).unwrap();
    let words: Vec<&str> = printed.split(' ').collect();
    format!("{}: {}", words[0], words[words.len() - 3..].join(" "))
}

#[test]
fn lines_tell() {
    let mut session = ListenerSession::new();
    let mut check = |line: &str, expected: &str| assert_eq!(tells(&mut session, line), expected, "{line}");
    let segment = |port: u16, flags: u8, sequence: u32| {
        hex(&seg(port, sequence, 1001, flags, &telling(&right()), b"x"))
    };
    let line = |segment: String| format!("segment 0 c0000201 1000 36 {segment}");

    check(&line(segment(PORT, SYN, 7)), "13: 0 0 0");
    check("start c0000202 443 000102030405060708090a0b0c0d0e0f", "0: 0 0 0");
    check(&line(segment(PORT, SYN, 7)), "0: 2 10 24");
    check("settings 0 on 8 1460 1000 1460 both", "0: 0 0 0");
    check(&line(segment(PORT, SYN, 7)), "0: 3 10 24");
    check(&line(segment(PORT + 1, SYN, 7)), "0: 3 10 24");
    for (flags, sequence, number) in [(SYN, 8, 7), (SYN | ACK, 7, 6), (ACK, 7, 10), (RST, 7, 10)] {
        check(&line(segment(PORT, flags, sequence)), &format!("{number}: 0 0 0"));
    }
    let opening = segment(PORT + 2, SYN, 7);
    for (line, number) in [
        (format!("segment 281474976710657 c0000201 1000 36 {opening}"), 5),
        (format!("segment 0 c00002 1000 36 {opening}"), 2),
        (format!("segment 0 c0000201 1000 35 {opening}"), 11),
        (format!("segment 0 c0000201 1000 36 {}", &opening[..42]), 1),
        (format!("segment 0 c0000201 1000 36 {opening}00"), 3),
        (line(segment(PORT + 2, ACK, 8)), 9),
    ] {
        check(&line, &format!("{number}: 0 0 0"));
    }
    check("resend 0 c0000201 40000 36", "0: 0 0 0");
    check("resend 0 c0000201 40002 36", "9: 0 0 0");
    check("key 0 000102030405060708090a0b0c0d0e0f", "0: 0 0 0");
    check("abandon 0 c0000201 40000", "0: 0 0 0");
    check(&line(segment(PORT + 1, ACK, 9)), "0: 0 0 0");
    check("close 0 c0000201 40001", "0: 0 0 0");
    check("close 0 c0000201 40001", "9: 0 0 0");
    // A full table tells nothing of the opening that it has no room for.
    for port in 0..64 {
        check(&line(segment(port, SYN, 7)), "0: 3 10 24");
    }
    check(&line(opening), "8: 0 0 0");
}

#[test]
fn lines_of_the_client_tell() {
    let mut session = ClientSession::new();
    let mut check = |line: &str, expected: &str| assert_eq!(tells(&mut session, line), expected, "{line}");
    let [segment, opening] =
        [SYN | ACK, SYN].map(|flags| hex(&flagged_answer(flags, &server(1), &PEER, &telling(&[3; 8]), 8)));
    let answer = format!("answer 0 c0000201 40000 0a000001 443 7 5 {segment}");
    check(&answer, "13: 0 0 0");
    check("start 5", "2: 0 0 0");
    check("start 4", "0: 0 0 0");
    check(&answer, "0: 2 10 24");
    check(&format!("{answer} new"), "0: 2 10 24");
    check(&format!("{answer} both"), "0: 3 10 24");
    for (line, number) in [
        (format!("answer 281474976710657 c0000201 40000 0a000001 443 7 5 {segment} both"), 5),
        (format!("answer 0 c00002 40000 0a000001 443 7 5 {segment} both"), 2),
        (format!("answer 0 c0000201 40000 0a000001 443 7 5 {} both", &segment[..42]), 1),
        (format!("answer 0 c0000201 40000 0a000001 443 7 5 {segment}01 both"), 3),
        (format!("answer 0 c0000201 40000 0a000001 444 7 5 {segment} both"), 4),
        (format!("answer 0 c0000201 40000 0a000001 443 7 5 {opening} both"), 6),
        (format!("answer 0 c0000201 40000 0a000001 443 7 1461 {segment} both"), 12),
        (format!("answer 0 c0000201 40000 0a000001 443 8 5 {segment} both"), 10),
    ] {
        check(&line, &format!("{number}: 0 0 0"));
    }
    check("open 0 c0000201 40000 0a000001 443 7 1460 1504 0102", "0: 0 0 0");
    check("open 0 c0000201 40000 0a000001 443 7 1460 1503 0102", "11: 0 0 0");
    check("failed 0 0a000001 443", "0: 0 0 0");
    check("failed 0 0a0000 443", "2: 0 0 0");
}

#[test]
fn line_lengths() {
    let line = |length: usize| {
        let mut line = vec![b'0'; length];
        line[..4].copy_from_slice(b"key ");
        line[length - 2..].copy_from_slice(b" -");
        line.push(b'\n');
        line
    };
    let mut text = [line(8192), line(8193), line(30_000)].concat();
    text.extend_from_slice(&[b'#'; 30_000]);
    let printed = answers(&mut ListenerSession::new(), &text);
    assert_eq!(printed, ["13 - - 0 0 0 - - kept 0 0 0", "bad line", "bad line"]);
}

#[test]
fn refused_start_replaces() {
    let text = b"start 4\nstart 5\nfailed 0 01020304 1\nstart 16\nfailed 0 01020304 1\n\
        failed 0 01020304050607080910111213141516 1";
    let printed = answers(&mut ClientSession::new(), text);
    assert_eq!(
        printed,
        [
            "0 0 0 - kept 0 0 0",
            "2 0 0 - kept 0 0 0",
            "13 0 0 - kept 0 0 0",
            "0 0 0 - kept 0 0 0",
            "2 0 0 - kept 0 0 0",
            "0 0 0 - kept 0 0 0"
        ]
    );
    let text = b"start 01020304 1 00000000000000000000000000000000\nstart 01020304 1 -\nkey 0 -\nstart - 1 -";
    let printed = answers(&mut ListenerSession::new(), text);
    let numbers: Vec<&str> = printed.iter().filter_map(|line| line.split(' ').next()).collect();
    assert_eq!(numbers, ["0", "12", "13", "2"]);
}

#[test]
fn generated_scripts_cover_everything() {
    for seed in 1..=4 {
        let text = generate::listener(seed, 3000);
        assert!(text == generate::listener(seed, 3000));
        let mut summary = Summary::default();
        answers(&mut ListenerSession::new(), &text).iter().for_each(|line| summary.add(line, Side::Listener));
        for number in 0..=13 {
            assert!(summary.numbers[&number] >= 20, "seed {seed} number {number}");
        }
        for kind in ["opening", "reset", "completion"] {
            assert!(summary.kinds[kind] >= 100, "seed {seed} {kind}");
        }
        for verdict in ["early", "plain", "repeat"] {
            assert!(summary.verdicts[verdict] >= 80, "seed {seed} {verdict}");
        }
        assert!(summary.numbers[&0] > 1500 && summary.bad_lines >= 50);
        assert!(summary.skipped >= 50 && summary.used >= 500 && summary.broken >= 100, "seed {seed}");
        assert_eq!((summary.changed, summary.strange), (0, 0));

        let text = generate::client(seed, 3000);
        assert!(text == generate::client(seed, 3000));
        let mut summary = Summary::default();
        answers(&mut ClientSession::new(), &text).iter().for_each(|line| summary.add(line, Side::Client));
        for number in [0, 1, 2, 3, 4, 5, 6, 10, 11, 12, 13] {
            assert!(summary.numbers[&number] >= 20, "seed {seed} number {number}");
        }
        assert!(summary.numbers[&0] > 1500 && summary.bad_lines >= 50);
        assert!(summary.skipped >= 50 && summary.used >= 500 && summary.broken >= 100, "seed {seed}");
        assert_eq!((summary.changed, summary.strange), (0, 0));
    }
}

/// What the openings with a cookie of one length met.
#[derive(Default)]
struct Met {
    below_zero: usize,
    zero: usize,
    one: usize,
    few: usize,
    filled: usize,
    cut_by_one: usize,
    large_filled: usize,
    large_cut_by_one: usize,
}

impl Met {
    fn add(&mut self, room: i64, offered: i64) {
        self.below_zero += usize::from(room < 0 && offered > 0);
        self.zero += usize::from(room == 0 && offered > 0);
        self.one += usize::from(room == 1 && offered > 0);
        self.few += usize::from((2..=16).contains(&room) && offered > 0);
        self.filled += usize::from(room > 0 && offered == room);
        self.cut_by_one += usize::from(room > 0 && offered == room + 1);
        self.large_filled += usize::from(room > 500 && offered == room);
        self.large_cut_by_one += usize::from(room > 500 && offered == room + 1);
    }
}

fn unhex(word: &str) -> Vec<u8> {
    let digits = word.trim_matches('-');
    (0..digits.len()).step_by(2).map(|at| u8::from_str_radix(&digits[at..at + 2], 16).unwrap()).collect()
}

/// Runs a generated script and shows each call: its words, the answer's and what there is
/// after it.
fn each_call<S: Session>(mut session: S, text: &[u8], mut show: impl FnMut(&[&str], &[&str], &S)) {
    for line in text.split(|&b| b == b'\n') {
        let Some(printed) = session.line(line).filter(|printed| printed != "bad line") else { continue };
        let words: Vec<&str> = std::str::from_utf8(line).unwrap().split(' ').collect();
        let printed: Vec<&str> = printed.split(' ').collect();
        show(&words, &printed, &session);
    }
}

/// Shows only calls that are done.
fn each_done<S: Session>(session: S, text: &[u8], mut show: impl FnMut(&[&str], &[&str], &S)) {
    each_call(session, text, |words, printed, session| {
        if printed[0] == "0" {
            show(words, printed, session);
        }
    });
}

fn each_client_done(seed: u64, mut show: impl FnMut(&[&str], &[&str], &Memory)) {
    each_done(ClientSession::new(), &generate::client(seed, 3000), |words, printed, session| {
        show(words, printed, session.client.memory().unwrap())
    });
}

/// The setting that an answer's words give.
fn codings_given(words: &[&str]) -> Codings {
    if words.get(9) == Some(&"both") {
        Codings::Both
    } else {
        Codings::New
    }
}

#[test]
fn generated_openings_meet_the_room() {
    for seed in 1..=4 {
        let mut met: [Met; 17] = Default::default();
        each_client_done(seed, |words, printed, memory| {
            if words[0] != "open" {
                return;
            }
            let options = 4 * usize::from(unhex(printed[3])[12] >> 4) - 20;
            if options <= 8 {
                // banned, or asking
                return;
            }
            let (cookie, size) = memory.known(&unhex(words[4]));
            let (room, offered) = (size as i64 - options as i64, unhex(words[9]).len() as i64);
            assert_eq!(printed[1], offered.min(room.max(0)).to_string());
            met[cookie.len()].add(room, offered);
        });
        for (length, met) in met.iter().enumerate().skip(4).step_by(2) {
            let least = met.below_zero.min(met.zero).min(met.one).min(met.few);
            assert!(least >= 1, "seed {seed} cookie {length}");
        }
        let all = |count: fn(&Met) -> usize| met.iter().map(count).sum::<usize>();
        assert!(all(|met| met.below_zero) >= 40 && all(|met| met.zero) >= 15, "seed {seed}");
        assert!(all(|met| met.filled) >= 20 && all(|met| met.cut_by_one) >= 20, "seed {seed}");
        assert!(all(|met| met.large_filled) >= 3 && all(|met| met.large_cut_by_one) >= 3, "seed {seed}");
    }
}

/// What an answer brings of Fast Open, with the length of its cookie. A 34 that isn't read as
/// an option that counts is taken for a skipped one, a 254 for one of another experiment.
fn brings(area: &[u8], codings: Codings) -> (&'static str, usize) {
    let used = |area, codings| wire::read_options(area, codings).fast_open;
    match used(area, codings) {
        None if used(area, Codings::Both).is_some_and(|older| !older.cookie.is_empty()) => {
            ("unread cookie", 0)
        }
        None if area.contains(&34) => ("skipped", 0),
        None if area.contains(&254) => ("other", 0),
        None => ("nothing", 0),
        Some(first) if !first.cookie.is_empty() => {
            let before = &area[..first.at - first.coding.prefix()];
            let sort = match first.coding {
                _ if before.contains(&34) => "skipped, cookie",
                _ if before.contains(&254) => "other, cookie",
                Coding::New => "cookie",
                Coding::Older => "older cookie",
            };
            (sort, first.cookie.len())
        }
        Some(first) => match used(&area[first.at..], codings) {
            Some(next) if !next.cookie.is_empty() => ("request, cookie", 0),
            _ => ("request", 0),
        },
    }
}

#[test]
fn generated_openings_meet_the_ban() {
    for seed in 1..=4 {
        // By name: what the last answer brought, and its time, if it left all data
        // unacknowledged and there was no ban.
        let mut last = BTreeMap::new();
        let mut banned = Vec::new();
        // What was brought, for each opening that tells whether such an answer set a ban; and
        // how many openings come at a ban's end.
        let mut telling = Vec::new();
        let mut ends = 0;
        each_client_done(seed, |words, printed, memory| {
            let clock = memory.clock();
            let name = |at: usize| (unhex(words[at]), words[at + 1].parse::<u16>().unwrap());
            match words[0] {
                "start" => last.clear(),
                "failed" => _ = last.remove(&name(2)),
                "answer" => {
                    last.remove(&name(4));
                    if words[7].parse() != Ok(0) && printed[1] == "0" && !banned.contains(&name(4)) {
                        let segment = unhex(words[8]);
                        let area = wire::Segment::parse(&segment).unwrap().options();
                        last.insert(name(4), (brings(area, codings_given(words)), clock));
                    }
                }
                _ => {
                    if let Some(&(brought, time)) = last.get(&name(4)) {
                        if clock < time + BAN_MS {
                            telling.push(brought);
                        }
                        ends += usize::from(clock == time + BAN_MS - 1 || clock == time + BAN_MS);
                    }
                }
            }
            let live = memory.bans().filter(|ban| ban.until > clock);
            banned = live.map(|ban| (ban.address.clone(), ban.port)).collect();
        });
        for length in [4, 6, 8, 10, 12, 14, 16] {
            let count = telling.iter().filter(|brought| brought.1 == length).count();
            assert!(count >= 1, "seed {seed} cookie {length}");
        }
        for sort in [
            "older cookie",
            "unread cookie",
            "skipped, cookie",
            "other, cookie",
            "request, cookie",
            "request",
            "skipped",
            "other",
            "nothing",
        ] {
            let count = telling.iter().filter(|brought| brought.0 == sort).count();
            assert!(count >= 3, "seed {seed} {sort}");
        }
        assert!(ends >= 4, "seed {seed}");
    }
}

#[test]
fn generated_openings_meet_the_older_coding() {
    for seed in 1..=4 {
        // Early by a cookie in the older coding, under the present key and the previous one; a
        // fresh cookie in the older coding; a right cookie in it under new only; repeats and
        // resends under another setting than the opening's.
        let (mut early, mut outdated, mut fresh, mut unread) = (0, 0, 0, 0);
        let (mut repeats, mut resends) = (0, 0);
        let mut key = [0; 16];
        let mut opened = BTreeMap::new();
        each_done(ListenerSession::new(), &generate::listener(seed, 3000), |words, printed, session| {
            let settings = session.listener.front().unwrap().current_settings();
            let turned = |under: Option<&Codings>| usize::from(under.is_some_and(|&c| c != settings.codings));
            match words[0] {
                "start" => {
                    key = unhex(words[3]).try_into().unwrap();
                    opened.clear();
                }
                "key" => key = unhex(words[2]).try_into().unwrap(),
                "resend" => {
                    assert_eq!(printed[4], "24");
                    resends += turned(opened.get(&(unhex(words[2]), words[3].parse().unwrap())));
                }
                "segment" if printed[1] == "opening" => {
                    let (source, segment, output) = (unhex(words[2]), unhex(words[5]), unhex(printed[6]));
                    let segment = wire::Segment::parse(&segment).unwrap();
                    let name = (source.clone(), segment.source_port());
                    if printed[2] == "repeat" {
                        assert_eq!(printed[4], "24");
                        repeats += turned(opened.get(&name));
                        return;
                    }
                    opened.insert(name, settings.codings);
                    fresh += usize::from(output[24..].starts_with(&[254, 12, 0xf9, 0x89]));
                    let used = wire::read_options(segment.options(), Codings::Both).fast_open;
                    let Some(option) = used.filter(|option| option.coding == Coding::Older) else { return };
                    let is_right = option.cookie == cookie(&key, &source);
                    match (settings.codings, printed[2]) {
                        (Codings::Both, "early") if is_right => early += 1,
                        (Codings::Both, "early") => outdated += 1,
                        (Codings::New, "plain") if is_right && printed[4] == "24" => {
                            let below = printed[5].parse::<u32>().unwrap() < settings.limit;
                            unread += usize::from(settings.on && below);
                        }
                        _ => {}
                    }
                }
                _ => {}
            }
        });
        assert!(early >= 30 && outdated >= 3, "seed {seed}: {early} {outdated}");
        assert!(fresh >= 20 && unread >= 10, "seed {seed}: {fresh} {unread}");
        assert!(repeats >= 20 && resends >= 20, "seed {seed}: {repeats} {resends}");
    }
}

#[test]
fn generated_openings_carry_cookies_from_the_older_coding() {
    for seed in 1..=4 {
        // By server: the cookie last stored, if it came in the older coding.
        let mut stored = BTreeMap::new();
        let mut carried = 0;
        each_client_done(seed, |words, printed, _| match words[0] {
            "start" => stored.clear(),
            "answer" => {
                let segment = unhex(words[8]);
                let area = wire::Segment::parse(&segment).unwrap().options();
                let used = wire::read_options(area, codings_given(words)).fast_open;
                match used.filter(|option| !option.cookie.is_empty()) {
                    Some(option) if option.coding == Coding::Older => {
                        stored.insert(unhex(words[4]), option.cookie.to_vec());
                    }
                    Some(_) => _ = stored.remove(&unhex(words[4])),
                    None => {}
                }
            }
            "open" => {
                let options = unhex(printed[3]).split_off(24);
                assert_ne!(options.first(), Some(&254), "never written");
                if let Some(cookie) = stored.get(&unhex(words[4])) {
                    carried += usize::from(options.starts_with(&fast_open(cookie)));
                }
            }
            _ => {}
        });
        assert!(carried >= 50, "seed {seed}: {carried}");
    }
}

/// The options that have the mark of the Fast Open experiment, by their length byte.
fn marked_lengths(area: &[u8]) -> impl Iterator<Item = usize> + '_ {
    area.windows(4).filter(|window| matches!(window, [254, _, 0xf9, 0x89])).map(|window| window[1].into())
}

#[test]
fn generated_areas_have_older_lengths() {
    // Openings when both are read, and answers given `both`.
    let [mut opening, mut answer] = [[0; 256]; 2];
    for seed in 1..=4 {
        each_done(ListenerSession::new(), &generate::listener(seed, 3000), |words, printed, session| {
            let codings = session.listener.front().unwrap().current_settings().codings;
            if printed[1] == "opening" && codings == Codings::Both {
                let segment = unhex(words[5]);
                let area = wire::Segment::parse(&segment).unwrap().options();
                marked_lengths(area).for_each(|length| opening[length] += 1);
            }
        });
        each_client_done(seed, |words, _, _| {
            if words[0] == "answer" && codings_given(words) == Codings::Both {
                let segment = unhex(words[8]);
                let area = wire::Segment::parse(&segment).unwrap().options();
                marked_lengths(area).for_each(|length| answer[length] += 1);
            }
        });
    }
    for length in [4, 5, 6, 7, 8, 12, 18, 20, 21, 22] {
        assert!(opening[length] >= 2 && answer[length] >= 2, "{length}");
    }
}

/// What follows the words that a line must have, each word with the space before it.
fn tail(line: &str, words: usize) -> String {
    line.split(' ').skip(words).map(|word| format!(" {word}")).collect()
}

#[test]
fn generated_scripts_spell_the_coding() {
    let [mut settings, mut answers] = [BTreeMap::new(), BTreeMap::new()];
    for seed in 1..=4 {
        for text in [generate::listener(seed, 3000), generate::client(seed, 3000)] {
            for line in String::from_utf8_lossy(&text).lines() {
                if line.starts_with("settings ") {
                    *settings.entry(tail(line, 7)).or_insert(0) += 1;
                } else if line.starts_with("answer ") {
                    *answers.entry(tail(line, 9)).or_insert(0) += 1;
                }
            }
        }
    }
    for tails in [settings, answers] {
        for tail in ["", " new", " both"] {
            assert!(tails[tail] >= 50, "{tail:?}");
        }
        for tail in [" old", " NEW", " ", " both both"] {
            assert!(tails[tail] >= 1, "{tail:?}");
        }
    }
}

/// The sorts of things that a reading can tell, and whether it does.
fn sorts(area: &[u8], codings: Codings) -> [(&'static str, bool); 10] {
    let reading = |area, codings| wire::read_options(area, codings).reading;
    let Reading { skipped, used, broken } = reading(area, codings);
    let before = reading(&area[..used.saturating_sub(1)], codings).skipped;
    [
        ("anything", skipped + used + broken > 0),
        ("skipped, none used", skipped > 0 && used == 0),
        ("broken, none used", broken > 0 && used == 0),
        ("several skipped", skipped > 1),
        ("skipped before", before > 0),
        ("skipped behind", used > 0 && skipped > before),
        ("skipped, then broken", skipped > 0 && broken > 0),
        ("used, not first", used > 1),
        ("used, then broken", used > 0 && broken > 0),
        ("older skipped", skipped > reading(area, Codings::New).skipped),
    ]
}

/// How often each sort came up, by the sort of call, of which some must not tell.
#[derive(Default)]
struct Tellings(BTreeMap<String, BTreeMap<&'static str, usize>>);

impl Tellings {
    fn add(&mut self, teller: String, area: &[u8], codings: Codings) {
        let met = self.0.entry(teller).or_default();
        for (sort, is_met) in sorts(area, codings) {
            *met.entry(sort).or_default() += usize::from(is_met);
        }
    }

    /// The expected sorts came up at least so often.
    fn check(&self, teller: &str, least: usize, expected: impl Fn(&str) -> bool) {
        let met = self.0.get(teller).unwrap_or_else(|| panic!("nothing of {teller}"));
        for (sort, &count) in met.iter().filter(|(sort, _)| expected(sort)) {
            assert!(count >= least, "{teller}, {sort}: {count}");
        }
    }
}

/// The words that tell of a reading.
fn words_of(reading: Reading) -> [String; 3] {
    [reading.skipped, reading.used, reading.broken].map(|number| number.to_string())
}

#[test]
fn generated_segments_tell() {
    let mut tellings = Tellings::default();
    for seed in 1..=4 {
        each_call(ListenerSession::new(), &generate::listener(seed, 3000), |words, printed, session| {
            let told = &printed[9..];
            if words[0] != "segment" || printed[1] != "opening" {
                assert_eq!(told, ["0"; 3], "seed {seed}");
            }
            let Some(front) = session.listener.front().filter(|_| words[0] == "segment") else { return };
            let Settings { on, codings, .. } = front.current_settings();
            let segment = unhex(words[5]);
            let Some(area) = wire::Segment::parse(&segment).map(|segment| segment.options()) else { return };
            let teller = match (printed[1], printed[2]) {
                ("opening", verdict) => {
                    assert_eq!(told, words_of(wire::read_options(area, codings).reading), "seed {seed}");
                    format!("{verdict} {} {codings:?}", if on { "on" } else { "off" })
                }
                ("-", _) => format!("refused {}", printed[0]),
                (kind, _) => kind.to_string(),
            };
            tellings.add(teller, area, codings);
        });
    }
    for codings in ["New", "Both"] {
        let possible = |sort: &str| codings == "Both" || sort != "older skipped";
        for teller in ["plain on", "plain off", "repeat on", "repeat off"] {
            tellings.check(&format!("{teller} {codings}"), 1, possible);
        }
        let with_one_used = |sort: &str| possible(sort) && !sort.contains("none");
        tellings.check(&format!("early on {codings}"), 5, with_one_used);
    }
    for teller in ["completion", "reset"] {
        tellings.check(teller, 3, |_| true);
    }
    for number in [2, 3, 4, 5, 6, 7, 8, 9, 10, 11] {
        tellings.check(&format!("refused {number}"), 25, |sort| sort == "anything");
    }
}

#[test]
fn generated_answers_tell() {
    let mut tellings = Tellings::default();
    for seed in 1..=4 {
        each_call(ClientSession::new(), &generate::client(seed, 3000), |words, printed, _| {
            let told = &printed[5..];
            if words[0] != "answer" || printed[0] != "0" {
                assert_eq!(told, ["0"; 3], "seed {seed}");
            }
            if words[0] != "answer" {
                return;
            }
            let (segment, codings) = (unhex(words[8]), codings_given(words));
            let Some(area) = wire::Segment::parse(&segment).map(|segment| segment.options()) else { return };
            let teller = if printed[0] == "0" {
                assert_eq!(told, words_of(wire::read_options(area, codings).reading), "seed {seed}");
                format!("{codings:?}")
            } else {
                format!("refused {}", printed[0])
            };
            tellings.add(teller, area, codings);
        });
    }
    tellings.check("New", 20, |sort| sort != "older skipped");
    tellings.check("Both", 20, |_| true);
    for number in [2, 3, 4, 5, 6, 10, 12] {
        tellings.check(&format!("refused {number}"), 25, |sort| sort == "anything");
    }
}

#[test]
fn generated_readings_break_off_everywhere() {
    let [mut openings, mut answers] = [[0; 41]; 2];
    for seed in 1..=4 {
        each_done(ListenerSession::new(), &generate::listener(seed, 3000), |_, printed, _| {
            openings[printed[11].parse::<usize>().unwrap()] += 1;
        });
        each_client_done(seed, |_, printed, _| answers[printed[7].parse::<usize>().unwrap()] += 1);
    }
    for place in 1..=40 {
        assert!(openings[place] >= 1 && answers[place] >= 1, "{place}: {openings:?} {answers:?}");
    }
}

/// What a call did to a listener: its words, those of its answer, and the slots before it with
/// the settings and clock after it.
struct Turn<'a> {
    words: &'a [&'a str],
    printed: &'a [&'a str],
    before: &'a [Slot],
    settings: Settings,
    clock: u64,
}

/// Shows each call on a started listener.
fn each_turn(text: &[u8], mut show: impl FnMut(&Turn)) {
    let mut before: Vec<Slot> = Vec::new();
    each_call(ListenerSession::new(), text, |words, printed, session| {
        let Some(front) = session.listener.front() else { return };
        let (settings, clock) = (front.current_settings(), front.clock());
        show(&Turn { words, printed, before: &before, settings, clock });
        before = front.slots().to_vec();
    });
}

/// Whether a script has, directly behind a start: a share of eight of 64, an opening that gets a
/// cookie, forty from its address of which eight are early and the others plain and without a
/// cookie, and one from another address that is early. Then how long the address is.
fn has_monday(text: &[u8]) -> Option<usize> {
    let mut found = None;
    // The segments behind a start and settings, or nothing where there was something else.
    let mut seen: Option<Vec<(Vec<u8>, u16, String)>> = None;
    each_turn(text, |turn| match turn.words[0] {
        "start" => seen = Some(Vec::new()),
        "settings" if seen.as_ref().is_some_and(Vec::is_empty) => {}
        "segment" => {
            let Some(seen) = &mut seen else { return };
            let segment = unhex(turn.words[5]);
            let port = wire::Segment::parse(&segment).map_or(0, |segment| segment.source_port());
            let answer = [turn.printed[0], turn.printed[2], turn.printed[4]].join(" ");
            seen.push((unhex(turn.words[2]), port, answer));
            let Settings { on: true, limit: 64, share: 8, .. } = turn.settings else { return };
            if seen.len() != 42 {
                return;
            }
            let expected = |n: usize| match n {
                0 => "0 plain 36",
                1..=8 | 41 => "0 early 24",
                _ => "0 plain 24",
            };
            let source = seen[0].0.clone();
            let ports: BTreeSet<u16> = seen[1..41].iter().map(|call| call.1).collect();
            let as_expected = seen.iter().enumerate().all(|(n, call)| call.2 == expected(n));
            let by_source = seen.iter().enumerate().all(|(n, call)| (call.0 == source) == (n < 41));
            if as_expected && by_source && ports.len() == 40 {
                found = Some(source.len());
            }
        }
        _ => seen = None,
    });
    found
}

#[test]
fn generated_scripts_have_monday() {
    let mut families = BTreeMap::new();
    for seed in (1..=40).chain([0, 1 << 32, u64::MAX]) {
        let family = has_monday(&generate::listener(seed, 3000));
        let family = family.unwrap_or_else(|| panic!("seed {seed}"));
        *families.entry(family).or_insert(0) += 1;
    }
    assert!(families[&4] >= 5 && families[&16] >= 5, "{families:?}");
    // Not only in the longest.
    assert!(has_monday(&generate::listener(1, 1000)).is_some());
    assert!(has_monday(b"start c0000202 443 000102030405060708090a0b0c0d0e0f\n").is_none());
}

/// The sorts of openings that a share makes a difference to, and what each is answered.
#[derive(Default)]
struct Shares(BTreeMap<(&'static str, usize), usize>);

impl Shares {
    fn add(&mut self, turn: &Turn, keys: &[[u8; 16]]) {
        let (source, segment) = (unhex(turn.words[2]), unhex(turn.words[5]));
        let family = source.len();
        let Settings { on, limit, share, codings, .. } = turn.settings;
        let (early, held, ended) = (
            |slot: &Slot| matches!(slot.status, Status::Early { .. }),
            |slot: &Slot| matches!(slot.status, Status::Held { until } if until > turn.clock),
            |slot: &Slot| matches!(slot.status, Status::Held { until } if until == turn.clock),
        );
        let count = |wanted: &dyn Fn(&Slot) -> bool| turn.before.iter().filter(|s| wanted(s)).count() as u32;
        let mine = |slot: &Slot| slot.address(family) == source;
        let pending = |slot: &Slot| early(slot) || held(slot);
        let all = count(&pending);
        let own = count(&|slot| mine(slot) && pending(slot));
        let own_early = count(&|slot| mine(slot) && early(slot));
        let just_ended = count(&|slot| mine(slot) && ended(slot)) > 0;
        let ends_next = count(&|slot| {
            mine(slot) && matches!(slot.status, Status::Held { until } if until == turn.clock + 1)
        }) > 0;
        let past_share = turn.before.iter().any(|slot| {
            let neighbour = slot.address(family);
            neighbour != source && count(&|s| pending(s) && s.address(family) == neighbour) >= share
        });

        let area = wire::Segment::parse(&segment).unwrap().options();
        let option = wire::read_options(area, codings).fast_open;
        let under = |key: Option<&[u8; 16]>| {
            key.is_some_and(|key| option.is_some_and(|option| option.cookie == cookie(key, &source)))
        };
        let mut back = keys.iter().rev();
        let (right, outdated) = (under(back.next()), under(back.next()));
        let below = own < share;
        let allowed = on && all < limit && below;
        // The rule, once more.
        let verdict = if allowed && (right || outdated) { "early" } else { "plain" };
        let written = if allowed && option.is_some() && !right { "36" } else { "24" };
        assert_eq!((turn.printed[2], turn.printed[4]), (verdict, written), "{:?}", turn.words);

        let free = on && all < limit;
        let asks = option.is_some_and(|option| option.cookie.is_empty());
        for (sort, is_met) in [
            ("right, last place", free && right && own + 1 == share && share < 64),
            ("right, at the share", free && right && own == share),
            ("right, past the share", free && right && own > share),
            ("request, last place", free && asks && own + 1 == share && share < 64),
            ("request, from the share up", free && asks && !below),
            ("wrong, from the share up", free && option.is_some() && !(asks || right || outdated || below)),
            ("outdated, last place", free && outdated && !right && own + 1 == share && share < 64),
            ("outdated, from the share up", free && outdated && !right && !below),
            ("no option, from the share up", free && option.is_none() && !below),
            ("right, another is at its share", free && right && below && past_share),
            ("request, another is at its share", free && asks && below && past_share),
            ("right, held ones decide", free && right && !below && own_early < share),
            ("right, one held until the next ms", free && right && own == share && ends_next),
            ("right, one held until now", free && right && own + 1 == share && just_ended && share < 64),
            ("right, share of one", free && right && own == 1 && share == 1),
            ("right, limit before the share", on && right && all >= limit && below && share < 64),
            ("right, limit and share", on && right && all >= limit && !below),
        ] {
            *self.0.entry((sort, family)).or_default() += usize::from(is_met);
        }
    }
}

#[test]
fn generated_openings_meet_the_share() {
    let mut shares = Shares::default();
    // By address, what made its number or the share another, after an opening found it taken;
    // and for how many of those the next opening was let in.
    let mut room = BTreeMap::new();
    for seed in 1..=8 {
        let mut keys: Vec<[u8; 16]> = Vec::new();
        let mut taken: BTreeMap<Vec<u8>, &str> = BTreeMap::new();
        let mut last_share = 64;
        each_turn(&generate::listener(seed, 3000), |turn| {
            if turn.printed[0] != "0" {
                return;
            }
            let share = turn.settings.share;
            match turn.words[0] {
                "start" => {
                    keys = vec![unhex(turn.words[3]).try_into().unwrap()];
                    taken.clear();
                }
                "key" => keys.push(unhex(turn.words[2]).try_into().unwrap()),
                "settings" => {
                    let change = if share > last_share { "raised" } else { "lowered" };
                    if share != last_share {
                        taken.values_mut().for_each(|why| *why = change);
                    }
                }
                "abandon" => _ = taken.entry(unhex(turn.words[2])).and_modify(|why| *why = "abandon"),
                "segment" => {
                    let source = unhex(turn.words[2]);
                    match turn.printed[1] {
                        "completion" => _ = taken.entry(source).and_modify(|why| *why = "completion"),
                        "reset" => _ = taken.entry(source).and_modify(|why| *why = "reset"),
                        _ if turn.printed[2] == "repeat" => {}
                        _ => {
                            shares.add(turn, &keys);
                            let pending = turn.before.iter().filter(|slot| slot.is_pending(turn.clock));
                            let own = pending.filter(|slot| slot.address(source.len()) == source).count();
                            if own as u32 >= share {
                                taken.insert(source, "");
                            } else if turn.printed[2] == "early" {
                                let why = taken.remove(&source).unwrap_or("");
                                *room.entry(why).or_insert(0) += 1;
                            }
                        }
                    }
                }
                _ => {}
            }
            last_share = share;
        });
    }
    for (sort, count) in &shares.0 {
        assert!(*count >= 4, "{sort:?}: {count} of {:?}", shares.0);
    }
    for why in ["abandon", "completion", "reset", "raised"] {
        assert!(room[why] >= 5, "{why}: {room:?}");
    }
}

#[test]
fn generated_scripts_spell_the_share() {
    let (mut tails, mut printed) = (BTreeMap::new(), BTreeMap::new());
    for seed in 1..=8 {
        let text = generate::listener(seed, 3000);
        for line in String::from_utf8_lossy(&text).lines().filter(|line| line.starts_with("settings ")) {
            *tails.entry(tail(line, 7)).or_insert(0) += 1;
        }
        each_turn(&text, |turn| {
            if turn.words[0] == "settings" {
                let share = turn.words.get(8).map_or(64, |word| word.parse::<u32>().unwrap());
                *printed.entry((share, turn.printed[0].to_string())).or_insert(0) += 1;
            }
        });
    }
    for tail in [" new 64", " both 64"] {
        assert!(tails[tail] >= 40, "{tail}: {tails:?}");
    }
    for (share, number) in [
        (0, "12"),
        (1, "0"),
        (2, "0"),
        (8, "0"),
        (63, "0"),
        (64, "0"),
        (65, "12"),
        (66, "12"),
        (264, "12"),
        (65_544, "12"),
        (u32::MAX, "12"),
    ] {
        let count = printed.get(&(share, number.to_string())).copied().unwrap_or(0);
        assert!(count >= 2, "{share} {number}: {count}");
    }
    // Bad lines: too large a number, even if it is in range when cut short; no number; a share and
    // no coding setting.
    for wrong in ["4294967296", "4294967304", "18446744073709551624", ""] {
        let spelt = |coding: &str| tails.get(&format!(" {coding} {wrong}")).copied().unwrap_or(0);
        assert!(spelt("new") + spelt("both") >= 2, "{wrong}");
    }
    assert!(tails.get(" 8").copied().unwrap_or(0) >= 2, "{tails:?}");
}

#[test]
fn a_crowd_elsewhere_makes_no_difference() {
    // The work that is timed beside others: what it does is what one without the crowd does.
    for live in [0, 7, 8, 9, 63, 64] {
        let of = |work| timing::run(work, 5, live, 100).unwrap();
        assert_eq!(of("shared"), of("early"), "{live}");
    }
}
