//! Packets: whole ones in every dress, and ones that are to be skipped.

use super::Rng;
use crate::packet::{
    self, carry, Carried, DO_NOT_FRAGMENT, FRAGMENT_OFFSET, IPV4_HEADER, IPV6_HEADER, MORE_FRAGMENTS,
};
use crate::pcap::SNAP_LENGTH;

const RESERVED: u16 = 0x8000;

/// A whole packet, with whatever makes no difference to it.
pub fn dressed(rng: &mut Rng, carried: &Carried) -> Vec<u8> {
    let mut packet = carry(carried);
    if carried.source.len() == 4 {
        dress_ipv4(rng, &mut packet);
    } else {
        // traffic class and flow label, hop limit
        if rng.percent(30) {
            packet[0] |= rng.next() as u8 & 0x0f;
            rng.next().to_be_bytes()[..3].iter().zip(1..).for_each(|(&byte, at)| packet[at] = byte);
        }
        if rng.percent(50) {
            packet[7] = rng.next() as u8;
        }
    }
    packet
}

fn dress_ipv4(rng: &mut Rng, packet: &mut Vec<u8>) {
    if rng.percent(20) {
        packet[1] = rng.next() as u8;
    }
    if rng.percent(50) {
        put(packet, 4, rng.next() as u16);
    }
    if rng.percent(40) {
        put(packet, 6, rng.pick(&[0, RESERVED, RESERVED | DO_NOT_FRAGMENT]));
    }
    if rng.percent(50) {
        packet[8] = rng.next() as u8;
    }
    let words = rng.within(1, 10) as usize;
    if rng.percent(15) && packet.len() + 4 * words <= SNAP_LENGTH as usize {
        let options = rng.bytes(4 * words);
        packet.splice(IPV4_HEADER..IPV4_HEADER, options);
        packet[0] += words as u8;
        fit(packet);
    }
    if rng.percent(70) {
        packet::seal(packet);
    } else {
        // the IP checksum isn't tested
        put(packet, 10, rng.next() as u16);
    }
}

fn put(packet: &mut [u8], at: usize, word: u16) {
    packet[at..at + 2].copy_from_slice(&word.to_be_bytes());
}

fn get(packet: &[u8], at: usize) -> u16 {
    u16::from_be_bytes([packet[at], packet[at + 1]])
}

fn is_ipv4(packet: &[u8]) -> bool {
    packet[0] >> 4 == 4
}

/// Where the header states the length.
fn length_at(packet: &[u8]) -> usize {
    if is_ipv4(packet) {
        2
    } else {
        4
    }
}

/// Makes the stated length that of the packet, as far as there is a header to state it.
pub fn fit(packet: &mut [u8]) {
    let at = length_at(packet);
    let length = if is_ipv4(packet) { packet.len() } else { packet.len().saturating_sub(IPV6_HEADER) };
    if packet.len() >= at + 2 {
        put(packet, at, length as u16);
    }
}

/// A whole packet made into one that isn't taken, mostly in one way alone.
pub fn spoilt(rng: &mut Rng, mut packet: Vec<u8>) -> Vec<u8> {
    match rng.below(14) {
        0 => {
            let version = rng.pick(&[0, 2, 5, 7, 8, 10, 12, 14, 15, if is_ipv4(&packet) { 6 } else { 4 }]);
            packet[0] = version << 4 | packet[0] & 0x0f;
        }
        1 => {
            // as a link with a shortest length pads it
            let more = rng.within(1, 20) as usize;
            packet.extend(rng.bytes(more));
        }
        2 => {
            let less = rng.within(1, 24) as usize;
            packet.truncate(packet.len() - less.min(packet.len() - 1));
        }
        3 => misstate(rng, &mut packet),
        4 => {
            let at = if is_ipv4(&packet) { 9 } else { 6 };
            packet[at] = rng.pick(&[0, 1, 2, 4, 7, 14, 17, 38, 41, 58, 59, 70, 132, 134]);
        }
        5 | 6 => elsewhere(rng, &mut packet),
        7 => packet = of_other_family(rng, &packet),
        8 => {
            let length = rng.below(40) as usize;
            packet.truncate(length);
            if length > 0 && rng.percent(60) {
                fit(&mut packet);
            }
        }
        9 if rng.percent(50) => packet.clear(),
        _ if is_ipv4(&packet) => spoil_ipv4(rng, &mut packet),
        _ => extend(rng, &mut packet),
    }
    packet.truncate(SNAP_LENGTH as usize);
    packet
}

/// A stated length that is off by a bit or by something that is easily forgotten.
fn misstate(rng: &mut Rng, packet: &mut [u8]) {
    let at = length_at(packet);
    let right = get(packet, at);
    let header = IPV6_HEADER as u16;
    let wrong = [
        0,
        right.wrapping_add(1),
        right.wrapping_sub(1),
        right.wrapping_add(header),
        right.wrapping_sub(header),
        right.wrapping_sub(IPV4_HEADER as u16),
        right ^ 1 << rng.below(16),
        right | 0x8000,
    ];
    put(packet, at, rng.pick(&wrong));
}

/// To another address: one bit away, or the answer's way.
fn elsewhere(rng: &mut Rng, packet: &mut [u8]) {
    let (source, length) = if is_ipv4(packet) { (12, 4) } else { (8, 16) };
    let destination = source + length;
    if rng.percent(30) {
        for at in source..destination {
            packet.swap(at, at + length);
        }
    } else {
        packet[destination + rng.index(length)] ^= 1 << rng.below(8);
    }
}

/// The same segment in a whole packet of the other family, to an address that begins or ends
/// as ours does.
fn of_other_family(rng: &mut Rng, packet: &[u8]) -> Vec<u8> {
    if !is_ipv4(packet) {
        let at = rng.pick(&[0, 12]);
        let (source, destination) = (&packet[8 + at..12 + at], &packet[24 + at..28 + at]);
        return carry(&Carried { source, destination, tcp: &packet[IPV6_HEADER..] });
    }
    let mapped = rng.percent(50);
    let longer = |address: &[u8]| {
        let mut block = [0; 16];
        if mapped {
            block[10..12].fill(0xff);
        }
        let at = if mapped { 12 } else { 0 };
        block[at..at + 4].copy_from_slice(address);
        block
    };
    let header = (4 * usize::from(packet[0] & 0x0f)).min(packet.len());
    let (source, destination) = (longer(&packet[12..16]), longer(&packet[16..20]));
    carry(&Carried { source: &source, destination: &destination, tcp: &packet[header..] })
}

fn spoil_ipv4(rng: &mut Rng, packet: &mut Vec<u8>) {
    let fragment = get(packet, 6);
    match rng.below(4) {
        // a fragment: the first, the last, one between
        0 => put(packet, 6, fragment | MORE_FRAGMENTS),
        1 => {
            let (any, bit) = (rng.within(1, FRAGMENT_OFFSET.into()) as u16, 1 << rng.below(13));
            let offset = rng.pick(&[any, bit]);
            let more = rng.pick(&[0, 0, MORE_FRAGMENTS]);
            put(packet, 6, fragment | offset | more);
        }
        // a header that is too short
        2 => packet[0] = 0x40 | rng.below(5) as u8,
        // one that is longer than the packet, or now and then just as long
        _ => {
            packet.truncate(rng.within(20, 59) as usize);
            let least = packet.len() / 4 + usize::from(rng.percent(80));
            packet[0] = 0x40 | rng.pick(&[least.min(15), 15]) as u8;
            fit(packet);
        }
    }
}

/// An extension header before the TCP part.
fn extend(rng: &mut Rng, packet: &mut Vec<u8>) {
    // hop-by-hop, routing, fragment, authentication, destination, mobility
    let kind = rng.pick(&[0, 43, 44, 51, 60, 135]);
    let header = [std::mem::replace(&mut packet[6], kind), 0, 1, 4, 0, 0, 0, 0];
    packet.splice(IPV6_HEADER..IPV6_HEADER, header);
    fit(packet);
}
