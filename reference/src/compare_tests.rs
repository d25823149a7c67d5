//! Tests of the comparison: what SETUP must be, what is listed, and where.

use std::collections::BTreeMap;
use std::fs;
use std::io;

use crate::capture_tests::{changed, file, packet, record, ENDS, KEY, OWN, OWN6, PEER6};
use crate::compare::{compare, entries, room, run, Entry, Judged, Setup, Site, Unusable, UNPAIRED};
use crate::comparisons::Comparisons;
use crate::generate;
use crate::listener::{cookie, Kind, Verdict};
use crate::packet::carried_to;
use crate::pcap::{Order, Record, Walk, FILE_HEADER};
use crate::wire::{self, Header, Refusal, ACK, FIN, RST, SYN};

/// Our address and a peer's.
type Ends = (&'static [u8], &'static [u8]);

const SETTINGS: &str = "settings 0 on 8 1000 50 1460 both";

fn hex(bytes: &[u8]) -> String {
    bytes.iter().map(|byte| format!("{byte:02x}")).collect()
}

fn start(own: &[u8]) -> String {
    format!("start {} 443 {}", hex(own), hex(&KEY))
}

fn text(own: &[u8]) -> String {
    format!("{}\n{SETTINGS}\n", start(own))
}

fn site(own: &[u8], file: &[u8]) -> Site {
    Site::judge(Setup::read(text(own).as_bytes()).unwrap().listener().unwrap(), file)
}

/// A packet from a port of the peer's.
fn sent(
    ends: Ends,
    port: u16,
    flags: u8,
    (sequence, acknowledgement): (u32, u32),
    options: &[u8],
    data: &[u8],
) -> Vec<u8> {
    let mut segment = [&[0; wire::HEADER][..], options, data].concat();
    let header = Header { source_port: port, destination_port: 443, sequence, acknowledgement, flags };
    wire::finish(&mut segment, &header, options.len(), ends.1, ends.0);
    packet(ends, &segment)
}

fn plain(ends: Ends, port: u16) -> Vec<u8> {
    sent(ends, port, SYN, (1000, 0), &[], b"data")
}

/// An option with the right cookie.
fn right(ends: Ends) -> Vec<u8> {
    [&[1, 1, 34, 10][..], &cookie(&KEY, ends.1)].concat()
}

fn early(ends: Ends, port: u16, data: &[u8]) -> Vec<u8> {
    sent(ends, port, SYN, (1000, 0), &right(ends), data)
}

fn capture(packets: &[&[u8]]) -> Vec<u8> {
    let records: Vec<Record> = packets.iter().map(|packet| record(packet)).collect();
    file(Order::Low, &records)
}

/// The list of two captures, as pairs of numbers. Swapped they have the same.
fn list(own: &[u8], first: &[u8], second: &[u8]) -> Vec<(u64, u64)> {
    let (first, second) = (site(own, first), site(own, second));
    let listed = entries(&first.judged, &second.judged);
    assert_eq!(listed, entries(&second.judged, &first.judged));
    assert_eq!(listed.is_empty(), first.judged == second.judged);
    listed.iter().map(|entry| (entry.k, entry.place)).collect()
}

/// What two captures of so many packets list where they differ in their last packets alone.
fn listed(ends: Ends, before: &[&[u8]], one: &[u8], other: &[u8]) -> Vec<(u64, u64)> {
    let with = |last| capture(&[before, &[last]].concat());
    list(ends.0, &with(one), &with(other))
}

fn printed(setup: &str, files: [&[u8]; 2], room: u64) -> Vec<String> {
    let mut output = Vec::new();
    compare(&Setup::read(setup.as_bytes()).unwrap(), files, room, &mut output).unwrap();
    String::from_utf8(output).unwrap().lines().map(str::to_string).collect()
}

#[test]
fn setups_that_can_be_used() {
    let start = start(&OWN);
    let plain = Setup::read(text(&OWN).as_bytes()).unwrap();
    let long = "#".repeat(9000);
    for setup in [
        format!("{start}\n{SETTINGS}"),
        format!("\n# {start}\n\n{start}\n{long}\n#\n\n{SETTINGS}\n\n#{SETTINGS}"),
        format!(
            "{}\nsettings 000 on 08 1000 50 1460 both 64\n",
            start.to_uppercase().replace("START", "start")
        ),
    ] {
        assert_eq!(Setup::read(setup.as_bytes()).as_ref(), Ok(&plain), "{setup}");
    }
}

/// The number and text of the line that is told; none where the end comes too early.
fn told(setup: &str) -> Option<(usize, String)> {
    match Setup::read(setup.as_bytes()).unwrap_err() {
        Unusable::Line(number, line) => Some((number, String::from_utf8(line.to_vec()).unwrap())),
        Unusable::End => None,
    }
}

#[test]
fn setups_that_cannot_be_used() {
    let start = &start(&OWN);
    for short in ["", "\n# nothing\n", start, &format!("#\n{start}\n\n"), &format!("{start}\n#{SETTINGS}")] {
        assert_eq!(told(short), None, "{short}");
    }
    let padded = |length: usize| format!("settings {} on 8 1000 50 1460", "0".repeat(length - 27));
    assert_eq!(padded(8192).len(), 8192);
    assert!(Setup::read(format!("{start}\n{}", padded(8192)).as_bytes()).is_ok());
    for (before, line, behind) in [
        ("", SETTINGS, &format!("\n{start}")[..]),
        (&format!("\n#\n{start}\n"), start, &format!("\n{SETTINGS}")),
        (&format!("{start}\n{SETTINGS}\n"), SETTINGS, "\n"),
        (&format!("{start}\n{SETTINGS}\n\n"), start, &format!("\n{SETTINGS}")),
        (&format!("{start}\n"), "settings 1 on 8 1000 50 1460", ""),
        (&format!("{start}\n"), "settings 18446744073709551615 on 8 1000 50 1460", ""),
        (&format!("{start}\n"), "key 0 00", &format!("\n{SETTINGS}")),
        (&format!("{start}\n{SETTINGS}\n"), "close 0 c0000201 1", ""),
        ("", &format!("{start}\r"), &format!("\n{SETTINGS}")),
        ("", &format!("{start} "), &format!("\n{SETTINGS}")),
        (&format!("{start}\n"), &format!(" {SETTINGS}"), ""),
        (&format!("{start}\n"), " #", &format!("\n{SETTINGS}")),
        (&format!("{start}\n"), &padded(8193), ""),
        (&format!("{start}\n"), "settings 0 on 4294967296 1000 50 1460", ""),
        (&format!("{start}\n"), "settings 0 on 8 1000 50 1460 old", ""),
        ("", "replay", "\n"),
    ] {
        let number = before.split('\n').count();
        assert_eq!(told(&format!("{before}{line}{behind}")), Some((number, line.to_string())));
    }
}

#[test]
fn the_first_refusal_is_the_answer() {
    let whole = capture(&[&plain(ENDS[0], 1)]);
    let (start, bad) = (start(&OWN), "settings 0 on 65 0 0 1460");
    for (setup, number) in [
        (format!("start c000 443 {}\n{SETTINGS}", hex(&KEY)), 2),
        (format!("start - 443 -\n{bad}"), 2),
        (format!("start c0000202 443 00\n{SETTINGS}"), 12),
        (format!("{start}\n{bad}"), 12),
        (format!("{start}\nsettings 0 off 0 0 0 535"), 12),
        (format!("{start}\nsettings 0 off 0 0 0 536 new 0"), 12),
    ] {
        assert_eq!(printed(&setup, [&whole, &[]], 9), [number.to_string()], "{setup}");
    }
}

#[test]
fn rooms() {
    for (word, most) in [("0", Some(0)), ("1", Some(1)), ("0004096", Some(4096)), ("4095", Some(4095))] {
        assert_eq!(room(word), most);
    }
    for word in
        ["", "4097", "-1", "+1", " 1", "1 ", "0x1", "-", "18446744073709551616", "18446744073709551617"]
    {
        assert_eq!(room(word), None, "{word}");
    }
}

#[test]
fn equal_captures_list_nothing() {
    for ends in ENDS {
        let (one, two) = (plain(ends, 1), early(ends, 2, b"early"));
        let packets = [&one[..], b"skipped", &two, &one, &[]];
        let records = packets.map(record);
        let low = file(Order::Low, &records);
        assert_eq!(list(ends.0, &low, &low), []);
        assert_eq!(list(ends.0, &low, &file(Order::High, &records)), []);
        let (first, second) = (site(ends.0, &low), site(ends.0, &low[..FILE_HEADER]));
        assert_eq!(first.judged.len(), 3);
        assert_eq!(
            (first.judged[1].said, &first.judged[1].part[..]),
            (Ok(Kind::Opening(Verdict::Early)), &b"early"[..])
        );
        assert_eq!(second, Site { judged: vec![], end: 0 });
        assert_eq!(entries(&second.judged, &second.judged), []);
    }
}

#[test]
fn numbers_that_differ() {
    for ends in ENDS {
        let good = plain(ends, 1);
        let last = good.len() - 1;
        let wrong_sum = changed(&good, |packet| packet[last] ^= 1);
        let wrong_flags = sent(ends, 1, SYN | FIN, (1000, 0), &[], &[]);
        // done and refused, refused and otherwise refused, refused and refused
        assert_eq!(listed(ends, &[], &good, &wrong_sum), [(0, 0)]);
        assert_eq!(listed(ends, &[&good], &wrong_sum, &wrong_flags), [(1, 0)]);
        assert_eq!(listed(ends, &[&good], &wrong_sum, &changed(&wrong_sum, |packet| packet[last] ^= 2)), []);
        // a completion that is done writes nothing either
        let completion = |acknowledgement| sent(ends, 1, ACK, (1001, acknowledgement), &[], &[]);
        assert_eq!(listed(ends, &[&good], &completion(1), &completion(2)), [(1, 0)]);
        assert_eq!(listed(ends, &[&good], &completion(2), &completion(3)), []);
    }
}

#[test]
fn kinds_and_verdicts_that_differ() {
    for ends in ENDS {
        let opening = plain(ends, 1);
        let completion = sent(ends, 1, ACK, (1001, 1), &[], &[]);
        let reset = sent(ends, 1, RST, (1001, 1), &[], &[]);
        assert_eq!(listed(ends, &[&opening], &completion, &reset), [(1, 0)]);
        // the same answer of 24 bytes
        let bare = sent(ends, 2, SYN, (1000, 0), &[], b"data");
        assert_eq!(listed(ends, &[&opening], &early(ends, 2, &[]), &bare), [(1, 24)]);
    }
}

#[test]
fn parts_that_differ() {
    for ends in ENDS {
        let one = early(ends, 2, b"early");
        assert_eq!(listed(ends, &[], &one, &early(ends, 2, b"eArly")), [(0, 24)]);
        // another length is in the answer too
        assert_eq!(listed(ends, &[], &one, &early(ends, 2, b"earl")), [(0, 11)]);
        // unless the first number makes up for it
        let less = sent(ends, 2, SYN, (1001, 0), &right(ends), b"earl");
        assert_eq!(listed(ends, &[], &one, &less), [(0, 24)]);
        // the same bytes elsewhere in the segment
        let longer = [&[1; 4][..], &right(ends)].concat();
        assert_eq!(listed(ends, &[], &one, &sent(ends, 2, SYN, (1000, 0), &longer, b"early")), []);
        // what isn't accepted doesn't matter: past the room, of a plain one, of a repeat
        let (long, other) = ([7; 1001], changed(&[7; 1001], |data| data[1000] = 8));
        assert_eq!(listed(ends, &[], &early(ends, 2, &long), &early(ends, 2, &other)), []);
        assert_eq!(listed(ends, &[], &early(ends, 2, &long[..1000]), &early(ends, 2, &other)), []);
        let opening = |data| sent(ends, 2, SYN, (1000, 0), &[], data);
        assert_eq!(listed(ends, &[], &opening(b"one"), &opening(b"other")), []);
        assert_eq!(listed(ends, &[&one], &one, &early(ends, 2, b"other")), []);
    }
}

#[test]
fn places_in_the_answers() {
    for ends in ENDS {
        let opening = |port, sequence, options: &[u8]| sent(ends, port, SYN, (sequence, 0), options, &[]);
        let one = opening(0x0102, 0x0304_0506, &[]);
        for (other, place) in [
            (opening(0x0202, 0x0304_0506, &[]), 2),
            (opening(0x0103, 0x0304_0506, &[]), 3),
            (opening(0x0102, 0x0404_0506, &[]), 8),
            (opening(0x0102, 0x0305_0506, &[]), 9),
            (opening(0x0102, 0x0304_0606, &[]), 10),
            (opening(0x0102, 0x0304_0507, &[]), 11),
            // a cookie: the header is longer
            (opening(0x0102, 0x0304_0506, &[34, 2, 1, 1]), 12),
        ] {
            assert_eq!(listed(ends, &[], &one, &other), [(0, place)]);
        }
        // the same port and numbers from another address
        let peer = if ends.0.len() == 4 { &[192, 0, 2, 7][..] } else { &OWN6 };
        let other = sent((ends.0, peer), 0x0102, SYN, (0x0304_0506, 0), &[], &[]);
        assert!(matches!(listed(ends, &[], &one, &other)[..], [(0, 16..=17)]));
    }
    // made up: differences in each place, and one answer that the other begins with
    let of = |answer: &[u8]| Judged {
        said: Ok(Kind::Opening(Verdict::Plain)),
        part: vec![],
        answer: answer.to_vec(),
    };
    let whole = [7; 36];
    for place in 0..36 {
        let other = changed(&whole, |answer| answer[place] = 8);
        for entry in [entries(&[of(&whole)], &[of(&other)]), entries(&[of(&other)], &[of(&whole)])] {
            assert_eq!(entry, [Entry { k: 0, place: place as u64 }]);
        }
        assert_eq!(entries(&[of(&whole)], &[of(&whole[..place])]), [Entry { k: 0, place: place as u64 }]);
    }
}

#[test]
fn every_later_answer_differs_behind_one_more_skipped_record() {
    let ends = ENDS[1];
    let packets: Vec<Vec<u8>> = (0..5).map(|port| plain(ends, port)).collect();
    let all: Vec<&[u8]> = packets.iter().map(|packet| &packet[..]).collect();
    let more = [&all[..2], &[&b"skipped"[..]], &all[2..]].concat();
    assert_eq!(list(&OWN6, &capture(&all), &capture(&more)), [(2, 7), (3, 7), (4, 7)]);
    // one in the place of a record leaves the numbers, but pairs with the next
    let instead = [&all[..2], &[&b"skipped"[..]], &all[3..]].concat();
    assert_eq!(list(&OWN6, &capture(&all), &capture(&instead)), [(2, 3), (3, 3), (4, UNPAIRED)]);
}

#[test]
fn what_is_no_difference() {
    for ends in ENDS {
        let (one, two) = (early(ends, 1, b"1"), early(ends, 2, b"2"));
        // where the used option began, and an option that is skipped
        let moved = [&right(ends)[2..], &[1, 1]].concat();
        let skipped = [&[34, 3, 0, 1][..], &right(ends)].concat();
        for options in [moved, skipped] {
            assert_eq!(listed(ends, &[&one], &two, &sent(ends, 2, SYN, (1000, 0), &options, b"2")), []);
        }
        // how the walks end
        let whole = capture(&[&one, &two]);
        let cut = [&whole[..], &[0]].concat();
        let bad = [&whole[..], &[0xff; 16]].concat();
        assert_eq!(list(ends.0, &whole, &cut), []);
        assert_eq!(list(ends.0, &cut, &bad), []);
        // the times, where they change no answer
        let later = Record { seconds: 8, ..record(&two) };
        assert_eq!(list(ends.0, &whole, &file(Order::Low, &[record(&one), later])), []);
    }
}

#[test]
fn pending_is_no_difference() {
    let ends = ENDS[0];
    let (one, other) = (early(ends, 1, &[]), plain(ends, 1));
    let last = sent(ends, 2, RST, (7, 0), &[], &[]);
    let [first, second] = [one, other].map(|packet| capture(&[&packet, &last]));
    // the first ones' verdicts differ; the second are refused alike, though pending isn't
    assert_eq!(list(&OWN, &first, &second), [(0, 24)]);
}

#[test]
fn the_rest_of_the_longer() {
    let ends = ENDS[0];
    let packets: Vec<Vec<u8>> = (0..6).map(|port| plain(ends, port)).collect();
    let all: Vec<&[u8]> = packets.iter().map(|packet| &packet[..]).collect();
    let other = changed(all[1], |packet| packet[39] ^= 1);
    let whole = capture(&all);
    let rest = |from: u64| (from..6).map(|k| (k, UNPAIRED)).collect::<Vec<_>>();
    for count in 0..=6 {
        assert_eq!(list(&OWN, &whole, &capture(&all[..count])), rest(count as u64));
    }
    for file in [&[][..], &whole[..FILE_HEADER], &whole[..FILE_HEADER + 3], &whole[1..]] {
        assert_eq!(list(&OWN, &whole, file), rest(0));
    }
    let differing = capture(&[all[0], &other, all[2]]);
    assert_eq!(list(&OWN, &whole, &differing), [&[(1, 0)][..], &rest(3)].concat());
    // skipped ones have no partner and need none
    assert_eq!(list(&OWN, &whole, &[&whole[..], &capture(&[b"skipped", &[]])[FILE_HEADER..]].concat()), []);
}

#[test]
fn as_many_as_there_is_room_for() {
    let ends = ENDS[0];
    let packets: Vec<Vec<u8>> = (0..6).map(|port| plain(ends, port)).collect();
    let all: Vec<&[u8]> = packets.iter().map(|packet| &packet[..]).collect();
    let other = changed(all[1], |packet| packet[39] ^= 1);
    let first = [&capture(&[all[0], &other, all[2], &[9]])[..], &[7; 15]].concat();
    let second = [&capture(&all)[..], &[0xff; 16]].concat();
    let max = UNPAIRED.to_string();
    let entries = ["1 0".to_string(), format!("3 {max}"), format!("4 {max}"), format!("5 {max}")];
    for room in [0, 1, 2, 3, 4, 5, 4096] {
        let listed = entries.len().min(room as usize);
        let mut expected = vec!["0".to_string()];
        expected.extend_from_slice(&entries[..listed]);
        expected.push(format!("rest {}", entries.len() - listed));
        let (one, other) = ("3 14", "6 15");
        let ended =
            |first, second| [expected.clone(), vec![format!("first {first}"), format!("second {second}")]];
        assert_eq!(printed(&text(&OWN), [&first, &second], room), ended(one, other).concat());
        assert_eq!(printed(&text(&OWN), [&second, &first], room), ended(other, one).concat());
    }
}

#[test]
fn each_capture_has_a_listener_of_its_own() {
    // On one listener the second capture's openings would be repeats.
    let packets: Vec<Vec<u8>> = (0..70).map(|port| early(ENDS[1], port, b"x")).collect();
    let all: Vec<&[u8]> = packets.iter().map(|packet| &packet[..]).collect();
    let both = site(&OWN6, &capture(&all));
    let refused = both.judged.iter().filter(|judged| judged.said == Err(Refusal::TableFull)).count();
    assert_eq!((both.judged.len(), refused), (70, 6));
    assert_eq!(
        printed(&text(&OWN6), [&capture(&all), &capture(&all)], 9)[1..],
        ["rest 0", "first 70 0", "second 70 0"]
    );
}

/// What is printed and what is told, with these texts in files and on standard input.
fn ran(files: &[(&str, &[u8])], names: [&str; 3], input: &[u8]) -> (String, io::Result<()>) {
    let folder =
        std::env::temp_dir().join(format!("reference-compare-{}-{}", std::process::id(), names.join("-")));
    fs::create_dir_all(&folder).unwrap();
    for (name, text) in files {
        fs::write(folder.join(name), text).unwrap();
    }
    let names = names.map(|name| match name {
        "-" => name.to_string(),
        name => folder.join(name).to_str().unwrap().to_string(),
    });
    let mut output = Vec::new();
    let result = run(names.each_ref().map(|name| &name[..]), 4096, input, &mut output);
    fs::remove_dir_all(&folder).unwrap();
    (String::from_utf8(output).unwrap(), result)
}

#[test]
fn files_and_standard_input() {
    let setup = text(&OWN);
    let (one, other) = (capture(&[&plain(ENDS[0], 1)]), capture(&[&plain(ENDS[0], 2), &plain(ENDS[0], 3)]));
    let files = [("setup", setup.as_bytes()), ("one", &one), ("other", &other)];
    let expected = format!("0\n0 3\n1 {UNPAIRED}\nrest 0\nfirst 1 0\nsecond 2 0\n");
    assert_eq!(ran(&files, ["setup", "one", "other"], &[]).0, expected);
    assert_eq!(ran(&files, ["setup", "-", "other"], &one).0, expected);
    assert_eq!(ran(&files, ["setup", "one", "-"], &other).0, expected);
    assert_eq!(ran(&files, ["setup", "one", "one"], &other).0, "0\nrest 0\nfirst 1 0\nsecond 1 0\n");
}

#[test]
fn what_cannot_be_used_is_told() {
    let (good, one) = (text(&OWN), capture(&[&plain(ENDS[0], 1)]));
    let bad = good.replace("settings 0", "\nsettings 7");
    let refused = good.replace("1460", "1461");
    let files = [
        ("good", good.as_bytes()),
        ("bad", bad.as_bytes()),
        ("refused", refused.as_bytes()),
        ("short", b"# none"),
        ("one", &one),
    ];
    for (names, words) in [
        (["none", "one", "one"], &["none"][..]),
        (["good", "none", "one"], &["none"]),
        (["good", "one", "none"], &["none"]),
        (["refused", "one", "none"], &["none"]),
        (["bad", "one", "one"], &["bad: ", "line 3: settings 7 on 8"]),
        (["short", "one", "-"], &["short: "]),
    ] {
        let (output, result) = ran(&files, names, &[]);
        let told = result.unwrap_err().to_string();
        assert_eq!(output, "", "{names:?}");
        assert!(words.iter().all(|word| told.contains(word)), "{names:?}: {told}");
    }
    assert_eq!(ran(&files, ["refused", "one", "one"], &[]).0, "12\n");
}

#[test]
fn the_part_is_a_part_of_the_segment() {
    let judged = &site(&OWN6, &capture(&[&early((&OWN6, &PEER6), 1, &[5; 1200])])).judged[0];
    assert_eq!((judged.part.len(), judged.answer.len()), (1000, 24));
}

/// The segments of the fed records, so far as they have a header: where it ends.
fn headers(own: &[u8], file: &[u8]) -> Vec<Option<u8>> {
    let records = Walk::new(file).filter_map(Result::ok);
    let fed = records.filter_map(|record| carried_to(own, record.bytes));
    fed.map(|carried| carried.tcp.get(12).map(|byte| byte >> 4)).collect()
}

/// How two that were fed differ, if they do.
fn difference(one: &Judged, other: &Judged) -> Vec<&'static str> {
    let verdict = |judged: &Judged| match judged.said {
        Ok(Kind::Opening(verdict)) => Some(verdict),
        _ => None,
    };
    let kind = |judged: &Judged| judged.said.map(|kind| std::mem::discriminant(&kind)).ok();
    let number = |judged: &Judged| judged.said.map_or_else(Refusal::number, |_| 0);
    let both_done = one.said.is_ok() && other.said.is_ok();
    [
        ("number", number(one) != number(other)),
        ("kind", both_done && kind(one) != kind(other)),
        ("verdict", both_done && kind(one) == kind(other) && verdict(one) != verdict(other)),
        ("part", one.part != other.part),
        ("answer", one.answer != other.answer),
    ]
    .into_iter()
    .filter_map(|(what, differs)| differs.then_some(what))
    .collect()
}

#[test]
fn generated_pairs_cover_everything() {
    let mut comparisons = Comparisons::default();
    let mut met: BTreeMap<String, usize> = BTreeMap::new();
    let mut meet = |what: &str| *met.entry(what.to_string()).or_default() += 1;
    for seed in 1..=400 {
        let (first, second) = generate::pair(seed, 120);
        let (setup, entries) = (generate::pair_setup(seed), generate::room(seed));
        assert_eq!((&first, &second), (&generate::pair(seed, 120).0, &generate::pair(seed, 120).1));
        let setup = Setup::read(&setup).unwrap();
        let listed = entries.as_ref().map_or(4096, |word| room(word).unwrap());
        let mut output = Vec::new();
        compare(&setup, [&first, &second], listed, &mut output).unwrap();
        String::from_utf8(output).unwrap().lines().for_each(|line| comparisons.add(line));
        meet(&format!("room {}", entries.map_or("-".to_string(), |_| listed.min(2).to_string())));
        let Ok(listener) = setup.listener() else { continue };
        if first == second {
            meet("equal files");
        }
        if first.first() != second.first() {
            meet("other order");
        }
        let own = listener.front().unwrap().own().to_vec();
        let moved = headers(&own, &first).into_iter().zip(headers(&own, &second));
        let sites = [&first, &second].map(|file| Site::judge(setup.listener().unwrap(), file));
        meet(&format!("ends {} {}", sites[0].end, sites[1].end));
        for ((one, other), (at, elsewhere)) in sites[0].judged.iter().zip(&sites[1].judged).zip(moved) {
            let differences = difference(one, other);
            assert_eq!(differences.is_empty(), one == other);
            if one == other && at != elsewhere && !one.part.is_empty() {
                meet("part elsewhere");
            }
            meet(&format!("difference {}", differences.join(" ")));
            for judged in [one, other] {
                meet(&format!("said {:?}", judged.said));
            }
        }
        match (sites[0].judged.len(), sites[1].judged.len()) {
            (0, 0) => meet("both empty"),
            (0, _) | (_, 0) => meet("one empty"),
            (first, second) => meet(&format!("length {:?}", first.cmp(&second))),
        }
    }
    for (what, least) in [
        ("room -", 60),
        ("room 0", 20),
        ("room 1", 20),
        ("room 2", 60),
        ("equal files", 15),
        ("other order", 50),
        ("ends 0 0", 200),
        ("ends 0 14", 20),
        ("ends 0 15", 20),
        ("ends 14 0", 5),
        ("ends 15 0", 5),
        ("one empty", 20),
        ("length Less", 10),
        ("length Greater", 40),
        ("length Equal", 100),
        ("part elsewhere", 30),
        ("difference number", 200),
        ("difference number answer", 200),
        ("difference kind", 10),
        ("difference verdict", 10),
        ("difference part", 50),
        ("difference part answer", 50),
        ("difference verdict answer", 50),
        ("difference kind answer", 50),
        ("difference answer", 400),
        ("difference ", 5000),
        ("said Ok(Opening(Early))", 2000),
        ("said Ok(Opening(Plain))", 2000),
        ("said Ok(Opening(Repeat))", 400),
        ("said Ok(Completion)", 400),
        ("said Ok(Reset)", 400),
        ("said Err(Malformed)", 100),
        ("said Err(Checksum)", 100),
        ("said Err(Port)", 50),
        ("said Err(Time)", 100),
        ("said Err(Flags)", 100),
        ("said Err(NotARepeat)", 100),
        ("said Err(TableFull)", 100),
        ("said Err(NoSuchConnection)", 100),
        ("said Err(Number)", 100),
    ] {
        let count = met.get(what).copied().unwrap_or(0);
        assert!(count >= least, "{what}: {count} of {met:#?}");
    }
    assert!(comparisons.numbers[&2] >= 5 && comparisons.numbers[&12] >= 5);
    assert!(comparisons.with_rest >= 40 && comparisons.alike >= 60 && comparisons.left_over >= 500);
    assert_eq!(comparisons.strange, 0);
}

#[test]
fn generated_setups_that_cannot_be_used() {
    let mut met: BTreeMap<String, usize> = BTreeMap::new();
    for seed in 1..=200 {
        let setup = generate::unusable_setup(seed);
        let what = match Setup::read(&setup).unwrap_err() {
            Unusable::End => "end".to_string(),
            Unusable::Line(_, line) if line.len() > 8192 => "long".to_string(),
            Unusable::Line(_, line) => {
                let known =
                    [&b"start "[..], b"settings ", b"key ", b"segment ", b"abandon ", b"resend ", b"close "];
                let known = known.into_iter().find(|name| line.starts_with(name)).unwrap_or(b"other");
                String::from_utf8(known.to_vec()).unwrap()
            }
        };
        *met.entry(what).or_default() += 1;
    }
    for what in ["end", "long", "start ", "settings ", "key ", "segment ", "other"] {
        assert!(met.contains_key(what), "{what} of {met:?}");
    }
}
