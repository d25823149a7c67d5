//! Tests of captures: the walk, what is taken of it, and what is written.

use std::collections::{BTreeMap, BTreeSet};

use crate::capture::{feed, Fed, Player};
use crate::generate;
use crate::listener::{cookie, Listener, Settings, LEAST_OUTPUT};
use crate::packet::{carried_to, carry, seal, Carried};
use crate::pcap::{encode, Order, Record, Walk, Writer, FILE_HEADER, MAGIC, RAW_IP, RECORD_HEADER};
use crate::script::{self, ListenerSession};
use crate::summary::{Side, Summary};
use crate::timing;
use crate::wire::{self, Codings, Header, Refusal, ACK, FIN, RST, SYN};

pub const KEY: [u8; 16] = [0, 1, 2, 3, 4, 5, 6, 7, 8, 9, 10, 11, 12, 13, 14, 15];
pub const OWN: [u8; 4] = [192, 0, 2, 2];
pub const PEER: [u8; 4] = [192, 0, 2, 1];
pub const OWN6: [u8; 16] = [0x20, 1, 0xd, 0xb8, 0, 0, 0, 0, 0, 0, 0, 0, 0, 0, 0, 2];
pub const PEER6: [u8; 16] = [0x20, 1, 0xd, 0xb8, 0, 0, 0, 0, 0, 0, 0, 0, 0, 0, 0, 1];
const SETTINGS: Settings =
    Settings { on: true, limit: 8, room: 1460, hold: 0, mss: 1460, codings: Codings::New, share: 64 };

/// Our address and a peer's, in each family.
pub const ENDS: [(&[u8], &[u8]); 2] = [(&OWN, &PEER), (&OWN6, &PEER6)];

const PACKET: &[u8] = b"abc";

pub fn record(bytes: &[u8]) -> Record<'_> {
    Record { seconds: 7, microseconds: 1999, original: bytes.len() as u32, bytes }
}

fn header(order: Order, numbers: [u32; 6]) -> Vec<u8> {
    numbers.into_iter().flat_map(|number| order.bytes(number)).collect()
}

pub fn file(order: Order, records: &[Record]) -> Vec<u8> {
    let mut file = header(order, [MAGIC, 4 << 16 | 2, 0, 0, 4096, RAW_IP]);
    records.iter().for_each(|record| file.extend(encode(record, record.bytes.len() as u32, order)));
    file
}

/// How many records a file has, and how its walk ends.
fn walked(file: &[u8]) -> (usize, Option<Refusal>) {
    let walk: Vec<_> = Walk::new(file).collect();
    let records = walk.iter().filter(|next| next.is_ok()).count();
    assert!(walk.len() - records <= 1, "a refusal ends the walk");
    (records, walk.last().and_then(|last| last.err()))
}

#[test]
fn both_orders() {
    let long = vec![9; 4096];
    let records = [
        Record { seconds: 1, microseconds: 2, original: 3, bytes: PACKET },
        Record { seconds: u32::MAX, microseconds: u32::MAX, original: u32::MAX, bytes: &[] },
        Record { seconds: 0x0102_0304, microseconds: 0x0506_0708, original: 0x090a_0b0c, bytes: &long },
    ];
    for order in [Order::Low, Order::High] {
        let file = file(order, &records);
        let read: Result<Vec<Record>, Refusal> = Walk::new(&file).collect();
        assert_eq!(read.unwrap(), records);
        assert_eq!(walked(&file), (3, None));
        assert_eq!(walked(&file[..FILE_HEADER]), (0, None));
    }
    assert_eq!(file(Order::High, &[])[..4], [0xa1, 0xb2, 0xc3, 0xd4]);
    assert_eq!(file(Order::Low, &[])[..4], [0xd4, 0xc3, 0xb2, 0xa1]);
}

#[test]
fn file_headers() {
    let bad = (0, Some(Refusal::BadCapture));
    for order in [Order::Low, Order::High] {
        let good = file(order, &[record(PACKET)]);
        for length in 0..FILE_HEADER {
            assert_eq!(walked(&good[..length]), bad, "{length}");
        }
        let with = |numbers| [header(order, numbers), good[FILE_HEADER..].to_vec()].concat();
        // version, zone, accuracy and snap length aren't tested
        assert_eq!(walked(&with([MAGIC, 0, u32::MAX, 5, 1, RAW_IP])), (1, None));
        for magic in [0xa1b2_3c4d, 0x4d3c_b2a1, 0xb2a1_d4c3, 0xc3d4_a1b2, 0xa1b2_c3d5, 0x21b2_c3d4, 0] {
            assert_eq!(walked(&with([magic, 4 << 16 | 2, 0, 0, 4096, RAW_IP])), bad, "{magic:x}");
        }
        for link in [0, 1, 100, 102, 228, 101 << 8, 101 << 24, 1 << 16 | 101, 0xf400_0065, 0x0065_0065] {
            assert_eq!(walked(&with([MAGIC, 4 << 16 | 2, 0, 0, 4096, link])), bad, "{link:x}");
        }
    }
}

#[test]
fn cut_records() {
    let long = vec![9; 4096];
    for order in [Order::Low, Order::High] {
        for last in [PACKET, &[], &long] {
            let file = file(order, &[record(PACKET), record(&[]), record(last)]);
            let begin = file.len() - RECORD_HEADER - last.len();
            assert_eq!(walked(&file[..begin]), (2, None));
            for length in begin + 1..file.len() {
                assert_eq!(walked(&file[..length]), (2, Some(Refusal::CutRecord)), "{length}");
            }
            assert_eq!(walked(&file), (3, None));
        }
    }
}

#[test]
fn too_long_records() {
    let long = vec![9; 5000];
    for order in [Order::Low, Order::High] {
        let good = file(order, &[record(PACKET), record(PACKET)]);
        for captured in [4097, 5000, 1 << 16, 1 << 31, u32::MAX] {
            let empty = Record { bytes: &[], ..record(PACKET) };
            let header = encode(&empty, captured, order);
            // whether its bytes are there or not, and whatever comes behind
            for behind in [&[][..], PACKET, &long[..4096], &long[..4097], &long, &good[FILE_HEADER..]] {
                let file = [&good[..], &header, behind].concat();
                assert_eq!(walked(&file), (2, Some(Refusal::BadCapture)), "{captured} {}", behind.len());
            }
            // a header that isn't whole states nothing
            for length in 1..RECORD_HEADER {
                let file = [&good[..], &header[..length]].concat();
                assert_eq!(walked(&file), (2, Some(Refusal::CutRecord)), "{captured} {length}");
            }
        }
    }
}

#[test]
fn times_are_rounded_down() {
    for (seconds, microseconds, time) in [
        (0, 0, 0),
        (0, 999, 0),
        (0, 1000, 1),
        (1, 999_999, 1999),
        (1, 1_000_000, 2000),
        (1, 1_000_999, 2000),
        (0, u32::MAX, 4_294_967),
        (u32::MAX, 0, 4_294_967_295_000),
        (u32::MAX, u32::MAX, 4_294_971_589_967),
    ] {
        assert_eq!(Record { seconds, microseconds, original: 0, bytes: &[] }.time(), time);
    }
}

/// A segment to our port with a right checksum.
fn segment((own, peer): (&[u8], &[u8]), flags: u8, numbers: (u32, u32), options: &[u8]) -> Vec<u8> {
    let mut segment = vec![0; wire::HEADER + options.len()];
    segment[wire::HEADER..].copy_from_slice(options);
    segment.extend_from_slice(b"data");
    let (sequence, acknowledgement) = numbers;
    let header = Header { source_port: 40_000, destination_port: 443, sequence, acknowledgement, flags };
    wire::finish(&mut segment, &header, options.len(), peer, own);
    segment
}

pub fn packet((own, peer): (&[u8], &[u8]), tcp: &[u8]) -> Vec<u8> {
    carry(&Carried { source: peer, destination: own, tcp })
}

fn opening(ends: (&[u8], &[u8])) -> Vec<u8> {
    packet(ends, &segment(ends, SYN, (1000, 0), &[]))
}

fn taken<'a>(own: &[u8], packet: &'a [u8]) -> Option<(&'a [u8], &'a [u8])> {
    carried_to(own, packet).map(|carried| (carried.source, carried.tcp))
}

/// The packet with something done to it.
pub fn changed(packet: &[u8], change: impl FnOnce(&mut Vec<u8>)) -> Vec<u8> {
    let mut packet = packet.to_vec();
    change(&mut packet);
    packet
}

#[test]
fn ipv4_packets_that_are_taken() {
    let tcp = segment(ENDS[0], SYN, (1000, 0), &[]);
    let whole = packet(ENDS[0], &tcp);
    assert_eq!(taken(&OWN, &whole), Some((&PEER[..], &tcp[..])));
    for (at, byte) in [(1, 0xff), (4, 9), (5, 9), (6, 0), (6, 0x80), (6, 0xc0), (8, 0), (10, 1), (11, 1)] {
        let dressed = changed(&whole, |packet| packet[at] = byte);
        assert_eq!(taken(&OWN, &dressed), Some((&PEER[..], &tcp[..])), "{at} {byte}");
    }
    for words in 1..=10 {
        let with_options = changed(&whole, |packet| {
            packet[0] += words;
            packet[3] += 4 * words;
            packet.splice(20..20, vec![1; 4 * usize::from(words)]);
        });
        assert_eq!(taken(&OWN, &with_options), Some((&PEER[..], &tcp[..])));
        // nothing but the header
        let bare = changed(&with_options, |packet| {
            packet[3] = 20 + 4 * words;
            packet.truncate(packet[3].into());
        });
        assert_eq!(taken(&OWN, &bare), Some((&PEER[..], &[][..])));
    }
    let long = vec![9; 4076];
    assert_eq!(taken(&OWN, &packet(ENDS[0], &long)), Some((&PEER[..], &long[..])));
}

#[test]
fn ipv4_packets_that_are_skipped() {
    let whole = opening(ENDS[0]);
    let skipped = |what: &str, change: &dyn Fn(&mut Vec<u8>)| {
        assert_eq!(taken(&OWN, &changed(&whole, change)), None, "{what}");
    };
    for version in (0..16).filter(|&version| version != 4) {
        skipped("version", &|packet| packet[0] = version << 4 | 5);
    }
    for words in 0..5 {
        skipped("short header", &|packet| packet[0] = 0x40 | words);
    }
    skipped("long header", &|packet| packet[0] = 0x4f);
    skipped("long header, by one word", &|packet| {
        packet.truncate(40);
        (packet[0], packet[3]) = (0x4b, 40);
    });
    skipped("padded", &|packet| packet.push(0));
    skipped("cut", &|packet| _ = packet.pop());
    for (at, bit) in (2..4).flat_map(|at| (0..8).map(move |bit| (at, bit))) {
        skipped("total length", &|packet| packet[at] ^= 1 << bit);
    }
    for bit in 0..5 {
        skipped("fragment offset", &|packet| packet[6] |= 1 << bit);
    }
    for bit in 0..8 {
        skipped("fragment offset", &|packet| packet[7] |= 1 << bit);
        skipped("protocol", &|packet| packet[9] ^= 1 << bit);
    }
    skipped("more fragments", &|packet| packet[6] |= 0x20);
    for bit in 0..32 {
        skipped("destination", &|packet| packet[16 + bit / 8] ^= 1 << (bit % 8));
    }
    skipped("the answer's way", &|packet| packet[12..20].rotate_left(4));
    skipped("the other family", &|packet| *packet = opening(ENDS[1]));
    for length in 0..20 {
        skipped("no whole header", &|packet| {
            packet.truncate(length);
            if length > 3 {
                packet[3] = length as u8;
            }
        });
    }
}

#[test]
fn ipv6_packets() {
    let tcp = segment(ENDS[1], SYN, (1000, 0), &[]);
    let whole = packet(ENDS[1], &tcp);
    assert_eq!(taken(&OWN6, &whole), Some((&PEER6[..], &tcp[..])));
    for (at, byte) in [(0, 0x6f), (1, 0xff), (2, 0xff), (3, 0xff), (7, 0)] {
        let dressed = changed(&whole, |packet| packet[at] = byte);
        assert_eq!(taken(&OWN6, &dressed), Some((&PEER6[..], &tcp[..])), "{at} {byte}");
    }
    assert_eq!(taken(&OWN6, &packet(ENDS[1], &[])), Some((&PEER6[..], &[][..])));
    let long = vec![9; 4056];
    assert_eq!(taken(&OWN6, &packet(ENDS[1], &long)), Some((&PEER6[..], &long[..])));

    let skipped = |what: &str, change: &dyn Fn(&mut Vec<u8>)| {
        assert_eq!(taken(&OWN6, &changed(&whole, change)), None, "{what}");
    };
    for version in (0..16).filter(|&version| version != 6) {
        skipped("version", &|packet| packet[0] = version << 4);
    }
    skipped("padded", &|packet| packet.push(0));
    skipped("cut", &|packet| _ = packet.pop());
    skipped("the whole length", &|packet| packet[5] = packet.len() as u8);
    for (at, bit) in (4..6).flat_map(|at| (0..8).map(move |bit| (at, bit))) {
        skipped("payload length", &|packet| packet[at] ^= 1 << bit);
    }
    for kind in [0, 43, 44, 51, 60, 135] {
        skipped("extension header", &|packet| {
            packet[6] = kind;
            packet[5] += 8;
            packet.splice(40..40, [6, 0, 1, 4, 0, 0, 0, 0]);
        });
    }
    skipped("next header", &|packet| packet[6] = 17);
    for bit in 0..128 {
        skipped("destination", &|packet| packet[24 + bit / 8] ^= 1 << (bit % 8));
    }
    skipped("the other family", &|packet| *packet = opening(ENDS[0]));
    for length in 0..40 {
        skipped("no whole header", &|packet| packet.truncate(length));
    }
    // a long address whose first bytes are our short one
    let mut near = OWN6;
    near[..4].copy_from_slice(&OWN);
    assert_eq!(taken(&OWN, &opening((&near, &PEER6))), None);
}

fn started(own: &[u8]) -> Listener {
    let mut listener = Listener::start(own, 443, &KEY).unwrap();
    listener.settings(0, SETTINGS).unwrap();
    listener
}

fn player(own: &[u8]) -> Player {
    Player::new(ListenerSession { listener: started(own) })
}

fn printed(player: &mut Player, file: &[u8]) -> Vec<String> {
    let mut output = Vec::new();
    player.play(file, &mut output).unwrap();
    String::from_utf8(output).unwrap().lines().map(str::to_string).collect()
}

/// The first words of each line.
fn heads(lines: &[String], words: usize) -> Vec<String> {
    lines.iter().map(|line| line.split(' ').take(words).collect::<Vec<_>>().join(" ")).collect()
}

#[test]
fn the_place_is_our_number() {
    let whole = opening(ENDS[0]);
    let mut out = [0; LEAST_OUTPUT];
    for (place, ours) in [(0, 0), (5, 5), ((1 << 32) - 1, u32::MAX), (1 << 32, 0), ((1 << 33) + 7, 7)] {
        let Fed { reply, .. } = feed(&mut started(&OWN), place, &record(&whole), &mut out).unwrap();
        assert_eq!(reply.unwrap().written, 24);
        assert_eq!(out[4..8], ours.to_be_bytes());
    }

    // skipped ones count
    let elsewhere = changed(&whole, |packet| packet[19] ^= 1);
    let completion = packet(ENDS[0], &segment(ENDS[0], ACK, (1001, 3), &[]));
    let records = [&elsewhere[..], &[], &whole, &completion].map(record);
    let lines = printed(&mut player(&OWN), &file(Order::High, &records));
    assert_eq!(
        lines,
        [
            "0 7001 skipped 0",
            "1 7001 skipped 0",
            "2 7001 0 opening plain 0 24 0 01bb9c4000000002000003e96012ffff722c0000020405b4 - kept 0 0 0",
            "3 7001 0 completion - 0 0 0 - - kept 0 0 0",
            "end 0 4 2 2",
        ]
    );
}

#[test]
fn ends_of_walks() {
    let whole = opening(ENDS[0]);
    let good = file(Order::Low, &[record(&whole), record(PACKET)]);
    for (file, end) in [
        (&good[..], "end 0 2 1 1"),
        (&good[..good.len() - 1], "end 14 1 1 0"),
        (&good[..FILE_HEADER + 1], "end 14 0 0 0"),
        (&good[..FILE_HEADER], "end 0 0 0 0"),
        (&good[..FILE_HEADER - 1], "end 15 0 0 0"),
        (&[&good[..], &[0xff; 16]].concat(), "end 15 2 1 1"),
    ] {
        assert_eq!(printed(&mut player(&OWN), file).last().unwrap(), end);
    }
}

#[test]
fn never_started() {
    let whole = opening(ENDS[0]);
    let file = file(Order::Low, &[record(&whole), record(&[])]);
    let mut player = Player::new(ListenerSession::new());
    let lines = printed(&mut player, &file);
    assert_eq!(lines, ["0 7001 skipped 13", "1 7001 skipped 13", "end 0 2 0 2"]);
    assert_eq!(player.sent.file, Writer::new().file);
}

#[test]
fn refused_and_skipped_records_change_nothing() {
    for ends in ENDS {
        let whole = opening(ends);
        let last = whole.len() - 1;
        let wrong_sum = changed(&whole, |packet| packet[last] ^= 1);
        let elsewhere = changed(&whole, |packet| packet[if ends.0.len() == 4 { 19 } else { 39 }] ^= 1);
        let with = |flags, numbers| packet(ends, &segment(ends, flags, numbers, &[]));
        let packets = [
            (9, wrong_sum),
            (9, elsewhere),
            (8, whole.clone()),
            (7, whole.clone()),
            (8, packet(ends, &[])),
            (8, packet(ends, &[9; 19])),
            (8, packet(ends, &[9; 4000])),
            (8, whole.clone()),
            (8, with(SYN | FIN, (0, 0))),
            (8, with(SYN, (999, 0))),
            (8, with(ACK, (1001, 2))),
            (8, with(RST, (1001, 0))),
            (8, with(RST, (1001, 0))),
        ];
        let records = packets.each_ref().map(|(seconds, bytes)| Record {
            seconds: *seconds,
            microseconds: 0,
            ..record(bytes)
        });
        let file = file(Order::Low, &records);
        let lines = heads(&printed(&mut player(ends.0), &file), 5);
        assert_eq!(
            lines,
            [
                "0 9000 3 - -",
                "1 9000 skipped 0",
                "2 8000 0 opening plain",
                "3 7000 5 - -",
                "4 8000 1 - -",
                "5 8000 1 - -",
                "6 8000 1 - -",
                "7 8000 0 opening repeat",
                "8 8000 6 - -",
                "9 8000 7 - -",
                "10 8000 10 - -",
                "11 8000 0 reset -",
                "12 8000 9 - -",
                "end 0 13 12 1",
            ]
        );
    }
}

#[test]
fn the_written_file_header() {
    let header = [0xd4, 0xc3, 0xb2, 0xa1, 2, 0, 4, 0, 0, 0, 0, 0, 0, 0, 0, 0, 0, 0x10, 0, 0, 101, 0, 0, 0];
    assert_eq!(Writer::new().file, header);
}

#[test]
fn what_is_written_reads_back() {
    let long = vec![9; 4097];
    let records = [
        Record { seconds: 1, microseconds: 2, original: 3, bytes: PACKET },
        Record { seconds: u32::MAX, microseconds: u32::MAX, original: 0, bytes: &[] },
        Record { seconds: 0, microseconds: 1_000_000, original: u32::MAX, bytes: &long[..4096] },
    ];
    let mut writer = Writer::new();
    for record in &records {
        writer.add(record).unwrap();
        let before = writer.file.clone();
        assert_eq!(writer.add(&Record { bytes: &long, ..*record }), Err(Refusal::BadCapture));
        assert_eq!(writer.file, before);
    }
    let read: Result<Vec<Record>, Refusal> = Walk::new(&writer.file).collect();
    assert_eq!(read.unwrap(), records);
}

#[test]
fn packets_and_answers_go_out() {
    for ends in ENDS {
        let (own, peer) = ends;
        let right = cookie(&KEY, peer);
        let request = packet(ends, &segment(ends, SYN, (1000, 0), &[34, 2, 1, 1]));
        let early = [&[34, 10][..], &right, &[1, 1]].concat();
        let mut early = segment(ends, SYN, (2000, 0), &early);
        early[1] = 1;
        early[16..18].fill(0);
        let sum = wire::checksum(peer, own, &early);
        early[16..18].copy_from_slice(&sum.to_be_bytes());
        let early = packet(ends, &early);
        let completion = packet(ends, &segment(ends, ACK, (1001, 1), &[]));
        let malformed = packet(ends, &[]);
        let records = [
            Record { seconds: 1, microseconds: 5_000_001, original: 77, bytes: &request },
            record(PACKET),
            Record { seconds: 8, microseconds: 9, original: 0, bytes: &completion },
            Record { seconds: 8, microseconds: 8, original: u32::MAX, bytes: &malformed },
            Record { seconds: 8, microseconds: 7, original: 1, bytes: &early },
        ];
        let mut player = player(own);
        let lines = printed(&mut player, &file(Order::High, &records));
        assert_eq!(
            heads(&lines, 7),
            [
                "0 6000 0 opening plain 0 36",
                "1 7001 skipped 0",
                "2 8000 0 completion - 0 0",
                "3 8000 1 - - 0 0",
                "4 8000 0 opening early 4 24",
                "end 0 5 4 1",
            ]
        );
        let sent: Vec<Record> = Walk::new(&player.sent.file).map(|record| record.unwrap()).collect();
        assert_eq!([sent[0], sent[2], sent[3], sent[4]], [records[0], records[2], records[3], records[4]]);
        assert_eq!(sent.len(), 6);
        for (answer, before, written) in [(sent[1], sent[0], 36), (sent[5], sent[4], 24)] {
            assert_eq!((answer.seconds, answer.microseconds), (before.seconds, before.microseconds));
            assert_eq!(answer.original as usize, answer.bytes.len());
            let Carried { source, tcp, .. } = carried_to(peer, answer.bytes).unwrap();
            assert_eq!((source, tcp.len()), (own, written));
            assert!(wire::Segment::parse(tcp).unwrap().checksum_holds(own, peer));
            assert!(lines.iter().any(|line| line.contains(&hex(tcp))));
        }
    }
}

fn hex(bytes: &[u8]) -> String {
    bytes.iter().map(|byte| format!("{byte:02x}")).collect()
}

#[test]
fn headers_of_answers() {
    let answer = carry(&Carried { source: &OWN, destination: &PEER, tcp: &[7; 24] });
    assert_eq!(answer[..10], [0x45, 0, 0, 44, 0, 0, 0x40, 0, 64, 6]);
    assert_eq!(answer[12..], [&OWN[..], &PEER, &[7; 24]].concat());
    assert_eq!(wire::add_to_sum(0, &answer[..20]), 0xffff);
    let answer = carry(&Carried { source: &OWN6, destination: &PEER6, tcp: &[7; 36] });
    assert_eq!(answer[..8], [0x60, 0, 0, 0, 0, 36, 6, 64]);
    assert_eq!(answer[8..], [&OWN6[..], &PEER6, &[7; 36]].concat());
}

#[test]
fn a_well_known_header_checksum() {
    let mut header =
        [0x45, 0, 0, 0x73, 0, 0, 0x40, 0, 0x40, 0x11, 0, 0, 0xc0, 0xa8, 0, 1, 0xc0, 0xa8, 0, 0xc7];
    seal(&mut header);
    assert_eq!(header[10..12], [0xb8, 0x61]);
}

/// The answers to SETUP and a capture of one seed, with the player they leave.
fn run(seed: u64, capture: &[u8]) -> (Vec<String>, Player) {
    let (mut session, mut setup) = (ListenerSession::new(), Vec::new());
    script::run(&mut session, &generate::setup(seed)[..], &mut setup).unwrap();
    let mut lines: Vec<String> = String::from_utf8(setup).unwrap().lines().map(str::to_string).collect();
    let mut player = Player::new(session);
    lines.extend(printed(&mut player, capture));
    (lines, player)
}

#[test]
fn generated_captures_cover_everything() {
    let mut summary = Summary::default();
    let (mut orders, mut short) = (BTreeMap::new(), 0);
    for seed in 1..=60 {
        let capture = generate::capture(seed, 300);
        assert!(capture == generate::capture(seed, 300));
        let (lines, player) = run(seed, &capture);
        lines.iter().for_each(|line| summary.add(line, Side::Capture));
        let sent = walked(&player.sent.file);
        assert_eq!(sent.1, None);
        let end = lines.last().unwrap();
        *orders.entry((capture.first().copied(), end.starts_with("end 0 "))).or_insert(0) += 1;
        let last = generate::last_record(seed, 300);
        short += usize::from(end.starts_with("end 0 ") && capture.len() - last < 116);
    }
    for number in [0, 1, 3, 4, 5, 6, 7, 8, 9, 10] {
        assert!(summary.numbers[&number] >= 50, "number {number}");
    }
    for (kind, least) in [("opening", 2000), ("reset", 400), ("completion", 400)] {
        assert!(summary.kinds[kind] >= least, "{kind}");
    }
    for verdict in ["early", "plain", "repeat"] {
        assert!(summary.verdicts[verdict] >= 400, "{verdict}");
    }
    assert!(summary.skipped_records[&0] >= 1500 && summary.skipped_records[&13] >= 200);
    assert!(summary.ends[&0] >= 30 && summary.ends[&14] >= 8 && summary.ends[&15] >= 8);
    assert!(orders[&(Some(0xa1), true)] >= 8 && orders[&(Some(0xd4), true)] >= 8);
    assert!(short >= 25, "{short}");
    assert!(summary.with_count >= 500 && summary.of_setup >= 100 && summary.bad_lines >= 5);
    assert_eq!((summary.changed, summary.strange), (0, 0));
}

#[test]
fn generated_captures_can_be_cut() {
    let mut tried = 0;
    for seed in 1..=8 {
        let capture = generate::capture(seed, 40);
        let (records, end) = walked(&capture);
        if end.is_some() || records == 0 {
            continue;
        }
        let last = generate::last_record(seed, 40);
        assert_eq!(walked(&capture[..last]), (records - 1, None));
        for length in last + 1..capture.len() {
            assert_eq!(walked(&capture[..length]), (records - 1, Some(Refusal::CutRecord)));
        }
        tried += 1;
    }
    assert!(tried >= 3);
}

/// Every reason for which a packet is skipped by a listener at this address.
fn reasons(own: &[u8], packet: &[u8]) -> BTreeSet<&'static str> {
    let ipv4 = own.len() == 4;
    let word = |at: usize| usize::from(packet[at]) << 8 | usize::from(packet[at + 1]);
    let mut reasons = BTreeSet::new();
    let least = if ipv4 { 20 } else { 40 };
    match packet.len() {
        0 => return BTreeSet::from(["empty"]),
        length if length < least => return BTreeSet::from(["short"]),
        length => {
            let header = if ipv4 { 4 * usize::from(packet[0] & 0x0f) } else { 40 };
            let stated = if ipv4 { word(2) } else { 40 + word(4) };
            let (protocol, destination) = if ipv4 { (9, 16) } else { (6, 24) };
            let version = packet[0] >> 4;
            let other = if ipv4 { 6 } else { 4 };
            let extension = !ipv4 && [0, 43, 44, 51, 60, 135].contains(&packet[6]);
            for (reason, is_so) in [
                ("other family", version == other && carried_length(packet) == Some(length)),
                ("version", version != if ipv4 { 4 } else { 6 }),
                ("short header", header < 20),
                ("long header", header > length),
                ("padded", stated < length),
                ("cut", stated > length),
                ("fragment offset", ipv4 && word(6) & 0x1fff != 0),
                ("more fragments", ipv4 && word(6) & 0x2000 != 0),
                ("extension header", extension),
                ("protocol", packet[protocol] != 6 && !extension),
                ("destination", packet[destination..destination + own.len()] != *own),
            ] {
                if is_so {
                    reasons.insert(reason);
                }
            }
        }
    }
    reasons
}

/// How long a packet says it is, by its version.
fn carried_length(packet: &[u8]) -> Option<usize> {
    let word = |at: usize| usize::from(packet[at]) << 8 | usize::from(packet[at + 1]);
    match packet[0] >> 4 {
        4 => Some(word(2)),
        6 => Some(40 + word(4)),
        _ => None,
    }
}

#[test]
fn generated_packets_are_skipped_for_every_reason() {
    let mut alone: BTreeMap<_, usize> = BTreeMap::new();
    let mut fed: BTreeMap<_, usize> = BTreeMap::new();
    for seed in 1..=80 {
        let capture = generate::capture(seed, 300);
        let (_, player) = run(seed, &[]);
        let Some(front) = player.session.listener.front() else { continue };
        let own = front.own();
        for record in Walk::new(&capture).filter_map(Result::ok) {
            let reasons = reasons(own, record.bytes);
            assert_eq!(reasons.is_empty(), carried_to(own, record.bytes).is_some(), "{reasons:?}");
            let Some(carried) = carried_to(own, record.bytes) else {
                let reason =
                    if reasons.contains("other family") { "other family" } else { reasons.first().unwrap() };
                if reasons.len() == 1 || reason == "other family" {
                    *alone.entry((own.len(), reason)).or_default() += 1;
                }
                continue;
            };
            for (what, is_so) in [
                ("options", own.len() == 4 && record.bytes[0] > 0x45),
                ("empty", carried.tcp.is_empty()),
                ("under a header", (1..20).contains(&carried.tcp.len())),
                ("longest segment", carried.tcp.len() == 1520),
                ("too long by one", carried.tcp.len() == 1521),
                ("longest record", record.bytes.len() == 4096),
                ("other original length", record.original as usize != record.bytes.len()),
                ("a million and more", record.microseconds >= 1_000_000),
                ("last seconds", record.seconds == u32::MAX),
            ] {
                *fed.entry((own.len(), what)).or_default() += usize::from(is_so);
            }
        }
    }
    let both = ["empty", "short", "other family", "version", "padded", "cut", "protocol", "destination"];
    let ipv4 = ["short header", "long header", "fragment offset", "more fragments"].map(|reason| (4, reason));
    let wanted = both.iter().flat_map(|&reason| [(4, reason), (16, reason)]);
    for reason in wanted.chain(ipv4).chain([(16, "extension header")]) {
        let count = alone.get(&reason).copied().unwrap_or(0);
        assert!(count >= 4, "{reason:?}: {count} of {alone:?}");
    }
    for (what, count) in &fed {
        assert!(*count >= 4 || *what == (16, "options"), "{what:?}: {count} of {fed:?}");
    }
}

#[test]
fn a_second_walk_answers_as_the_first() {
    // Those that were taken are repeats then, and the table stays full.
    let of = |count| timing::run("walk", count, 0, 0).unwrap();
    assert_eq!((of(0), of(2000), of(3000)), (0, 2 * of(1000), 3 * of(1000)));
    assert_eq!(of(1002) - of(1000), of(2));
}
