//! IP packets that carry TCP: taking one apart, and putting one together.

use crate::wire::{self, PROTOCOL_TCP};

pub const IPV4_HEADER: usize = 20;
pub const IPV6_HEADER: usize = 40;
pub const DO_NOT_FRAGMENT: u16 = 0x4000;
pub const MORE_FRAGMENTS: u16 = 0x2000;
pub const FRAGMENT_OFFSET: u16 = 0x1fff;

const TIME_TO_LIVE: u8 = 64;

/// The TCP part of a packet, and from where to where it goes.
#[derive(Clone, Copy, Debug, PartialEq, Eq)]
pub struct Carried<'a> {
    pub source: &'a [u8],
    pub destination: &'a [u8],
    pub tcp: &'a [u8],
}

/// What a packet carries to an address: of the address's family, whole, not a fragment, and
/// without extension headers.
pub fn carried_to<'a>(own: &[u8], packet: &'a [u8]) -> Option<Carried<'a>> {
    let carried = if own.len() == 4 { ipv4(packet) } else { ipv6(packet) };
    carried.filter(|carried| carried.destination == own)
}

fn word(bytes: &[u8], at: usize) -> u16 {
    u16::from_be_bytes([bytes[at], bytes[at + 1]])
}

/// The checksum isn't looked at, nor the reserved and do-not-fragment bits.
fn ipv4(packet: &[u8]) -> Option<Carried<'_>> {
    let fixed = packet.get(..IPV4_HEADER)?;
    let header = 4 * usize::from(fixed[0] & 0x0f);
    let is_whole = usize::from(word(fixed, 2)) == packet.len();
    let is_fragment = word(fixed, 6) & (MORE_FRAGMENTS | FRAGMENT_OFFSET) != 0;
    if fixed[0] >> 4 != 4 || header < IPV4_HEADER || !is_whole || is_fragment || fixed[9] != PROTOCOL_TCP {
        return None;
    }
    let tcp = packet.get(header..)?;
    Some(Carried { source: &packet[12..16], destination: &packet[16..20], tcp })
}

/// An extension header would be the next one in TCP's place.
fn ipv6(packet: &[u8]) -> Option<Carried<'_>> {
    let header = packet.get(..IPV6_HEADER)?;
    let is_whole = usize::from(word(header, 4)) + IPV6_HEADER == packet.len();
    if header[0] >> 4 != 6 || !is_whole || header[6] != PROTOCOL_TCP {
        return None;
    }
    Some(Carried { source: &packet[8..24], destination: &packet[24..40], tcp: &packet[IPV6_HEADER..] })
}

/// The packet that carries a segment, in the family of its addresses.
pub fn carry(carried: &Carried) -> Vec<u8> {
    let Carried { source, destination, tcp } = *carried;
    let header = if source.len() == 4 { ipv4_header(tcp.len()) } else { ipv6_header(tcp.len()) };
    let mut packet = [&header, source, destination, tcp].concat();
    if source.len() == 4 {
        seal(&mut packet);
    }
    packet
}

/// All before the addresses, the checksum still zero.
fn ipv4_header(tcp: usize) -> Vec<u8> {
    let [high, low] = ((IPV4_HEADER + tcp) as u16).to_be_bytes();
    let [flags, offset] = DO_NOT_FRAGMENT.to_be_bytes();
    vec![0x45, 0, high, low, 0, 0, flags, offset, TIME_TO_LIVE, PROTOCOL_TCP, 0, 0]
}

fn ipv6_header(tcp: usize) -> Vec<u8> {
    let [high, low] = (tcp as u16).to_be_bytes();
    vec![0x60, 0, 0, 0, high, low, PROTOCOL_TCP, TIME_TO_LIVE]
}

/// Puts the right checksum into an IPv4 header, which may have options.
pub fn seal(packet: &mut [u8]) {
    let header = (4 * usize::from(packet[0] & 0x0f)).min(packet.len());
    packet[10..12].fill(0);
    let sum = !wire::add_to_sum(0, &packet[..header]);
    packet[10..12].copy_from_slice(&sum.to_be_bytes());
}
