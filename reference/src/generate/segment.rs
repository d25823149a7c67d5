//! Segments as plans: right ones first, then damaged field by field.

use super::Rng;
use crate::wire::{self, Coding, Codings};

#[derive(Clone, Copy)]
pub enum Sum {
    Right,
    /// Right but for these bits.
    Off(u16),
    /// The urgent pointer makes the sum come out as zero; the field has zero's other form.
    OtherZero,
}

#[derive(Clone)]
pub struct Plan {
    pub source: Vec<u8>,
    pub destination: Vec<u8>,
    pub source_port: u16,
    pub destination_port: u16,
    pub sequence: u32,
    pub acknowledgement: u32,
    pub flags: u8,
    pub window: u16,
    pub urgent: u16,
    pub options: Vec<u8>,
    pub payload: Vec<u8>,
    pub reserved: u8,
    pub offset: Option<u8>,
    pub length: Option<usize>,
    pub sum: Sum,
}

impl Plan {
    /// Bytes with the checksum asked for.
    pub fn encode(&self) -> Vec<u8> {
        let mut bytes = Vec::new();
        bytes.extend_from_slice(&self.source_port.to_be_bytes());
        bytes.extend_from_slice(&self.destination_port.to_be_bytes());
        bytes.extend_from_slice(&self.sequence.to_be_bytes());
        bytes.extend_from_slice(&self.acknowledgement.to_be_bytes());
        let offset = self.offset.unwrap_or((5 + self.options.len().div_ceil(4)) as u8);
        bytes.push(offset << 4 | self.reserved & 0x0f);
        bytes.push(self.flags);
        bytes.extend_from_slice(&self.window.to_be_bytes());
        bytes.extend_from_slice(&[0, 0]);
        bytes.extend_from_slice(&self.urgent.to_be_bytes());
        bytes.extend_from_slice(&self.options);
        bytes.resize(bytes.len().next_multiple_of(4), 0);
        bytes.extend_from_slice(&self.payload);
        if let Some(length) = self.length {
            bytes.resize(length, 0x5a);
        }
        if bytes.len() >= wire::HEADER {
            self.seal(&mut bytes);
        }
        bytes
    }

    fn seal(&self, bytes: &mut [u8]) {
        let sum = |bytes: &[u8]| wire::checksum(&self.source, &self.destination, bytes);
        let field = match self.sum {
            Sum::Right => sum(bytes),
            Sum::Off(bits) => sum(bytes) ^ bits,
            Sum::OtherZero => {
                bytes[18..20].fill(0);
                let missing = sum(bytes);
                bytes[18..20].copy_from_slice(&missing.to_be_bytes());
                0xffff
            }
        };
        bytes[16..18].copy_from_slice(&field.to_be_bytes());
    }

    /// Things that make no difference to what a segment is.
    pub fn decorate(&mut self, rng: &mut Rng) {
        if rng.percent(20) {
            // CWR, ECE, URG and PSH
            self.flags |= rng.next() as u8 & 0b1110_1000;
        }
        if rng.percent(15) {
            self.reserved = rng.next() as u8;
        }
        if rng.percent(25) {
            self.window = rng.next() as u16;
        }
        if rng.percent(10) {
            self.urgent = rng.next() as u16;
        }
        if rng.percent(3) {
            self.sum = Sum::OtherZero;
        }
        if rng.percent(1) {
            self.length = Some(rng.pick(&[1519, 1520]));
        }
    }

    /// One damage to the segment itself; the checksum fits unless it is the damage.
    pub fn damage(&mut self, rng: &mut Rng) {
        match rng.weighted(&[12, 8, 14, 8, 24, 20, 12, 12]) {
            0 => self.length = Some(rng.pick(&[0, 1, 12, 13, 14, 18, 19, 19, 1521, 1521, 1522, 1600])),
            1 => self.offset = Some(rng.pick(&[0, 1, 3, 4, 4])),
            2 => {
                // a header just longer than the segment, or only the longest one
                let size = wire::HEADER + self.options.len() + self.payload.len();
                let just_over = (size / 4 + 1).min(15) as u8;
                self.offset = Some(rng.pick(&[just_over, 15]));
                if size >= 60 {
                    self.length = Some(rng.pick(&[20, 40, 59, 60]));
                }
            }
            3 => self.sum = Sum::Off(0xffff),
            4 => self.sum = Sum::Off(1 << rng.below(16)),
            5 => self.flags = rng.next() as u8,
            6 => self.sequence = self.sequence.wrapping_add(rng.pick(&NUDGES)),
            _ => self.acknowledgement = self.acknowledgement.wrapping_add(rng.pick(&NUDGES)),
        }
    }
}

/// Steps about the edges of a window.
pub const NUDGES: [u32; 10] =
    [1, 2, u32::MAX, u32::MAX - 1, 65_533, 65_534, 65_535, 65_536, 1 << 31, (1 << 31) - 1];

/// An option area that carries these options among others, in at most 40 bytes.
pub fn area_with(rng: &mut Rng, wanted: &[Vec<u8>]) -> Vec<u8> {
    let mut area = Vec::new();
    for option in wanted {
        if rng.percent(25) {
            let other = bystander(rng);
            if area.len() + other.len() + option.len() <= 40 {
                area.extend_from_slice(&other);
            }
        }
        if area.len() + option.len() <= 40 {
            area.extend_from_slice(option);
        }
    }
    let fill = rng.pick(&[wire::NO_OPERATION, wire::NO_OPERATION, wire::END_OF_LIST, 34, 254, 2, 255]);
    area.resize(area.len().next_multiple_of(4), fill);
    area
}

/// A sound option of another kind.
fn bystander(rng: &mut Rng) -> Vec<u8> {
    match rng.below(8) {
        0 => vec![wire::NO_OPERATION],
        1 => vec![4, 2],
        2 => vec![3, 3, 7],
        3 => [&[8, 10][..], &rng.bytes(8)].concat(),
        // what is read, with lengths that don't count
        4 => option(rng, wire::MSS, &[2, 3, 5, 6, 8]),
        5 => option(rng, wire::FAST_OPEN, &[3, 4, 4, 5, 7, 9, 11, 17, 19, 20]),
        6 if rng.percent(50) => {
            let length = rng.pick(&[2, 3, 5, 6, 6, 7, 9, 11, 19, 21, 22]);
            experiment(rng, wire::FAST_OPEN_MARK, length)
        }
        6 => other_experiment(rng),
        _ => {
            let kind = rng.within(5, 255) as u8;
            let kind = if kind == wire::FAST_OPEN { 35 } else { kind };
            option(rng, kind, &[2, 3, 4, 7, 12])
        }
    }
}

fn option(rng: &mut Rng, kind: u8, lengths: &[u8]) -> Vec<u8> {
    let length = rng.pick(lengths);
    let mut bytes = vec![kind, length];
    bytes.extend(rng.bytes(usize::from(length).saturating_sub(2)));
    bytes
}

pub const CODINGS: [Coding; 2] = [Coding::New, Coding::Older];

/// A coding that the setting counts.
pub fn counted(rng: &mut Rng, codings: Codings) -> Coding {
    match codings {
        Codings::New => Coding::New,
        Codings::Both => rng.pick(&CODINGS),
    }
}

/// A coding that the setting counts, or now and then the older one even so.
pub fn some_coding(rng: &mut Rng, codings: Codings) -> Coding {
    if rng.percent(16) {
        return Coding::Older;
    }
    counted(rng, codings)
}

/// A Fast Open option of a length that counts: mostly with this cookie, or asking for one.
fn fast_open(rng: &mut Rng, coding: Coding, cookie: &[u8]) -> Vec<u8> {
    let none: &[u8] = &[];
    coding.option(rng.pick(&[cookie, cookie, none]))
}

/// A Fast Open option of a length that doesn't count, mostly so short that several fit.
fn skipped(rng: &mut Rng, coding: Coding) -> Vec<u8> {
    let odd = 1 + 2 * rng.index(8);
    let length = rng.pick(&[1, 1, 2, 2, 3, 5, odd, odd]);
    coding.option(&rng.bytes(length))
}

/// A Fast Open option that is longer than any that counts.
fn too_long(rng: &mut Rng, coding: Coding) -> Vec<u8> {
    let length = 17 + rng.index(40 - coding.prefix() - 16);
    coding.option(&rng.bytes(length))
}

/// An option of the experimental kind and this length with this mark, as far as it fits.
fn experiment(rng: &mut Rng, mark: [u8; 2], length: usize) -> Vec<u8> {
    let mut option = [&[wire::EXPERIMENT, length as u8][..], &mark].concat();
    option.truncate(length.max(2));
    option.extend(rng.bytes(length.saturating_sub(4)));
    option
}

/// Two bytes that aren't Fast Open's: one bit away, the other way round, or quite different.
fn other_mark(rng: &mut Rng) -> [u8; 2] {
    let [high, low] = wire::FAST_OPEN_MARK;
    let bit = 1 << rng.below(8);
    rng.pick(&[[high ^ bit, low], [high, low ^ bit], [low, high], [high, high], [low, low], [0, 0]])
}

/// An option of another experiment, of a length that would count or not.
pub fn other_experiment(rng: &mut Rng) -> Vec<u8> {
    let (mark, length) = (other_mark(rng), rng.pick(&[4, 4, 5, 6, 8, 12, 12, 14, 20]));
    experiment(rng, mark, length)
}

/// An option of the experimental kind, of any length and with any mark.
fn wild_experiment(rng: &mut Rng) -> Vec<u8> {
    let any = rng.index(41);
    let length = rng.pick(&[any, any, any, any, any, 2, 3, 3, 4, 5, 6, 7, 8, 18, 20, 21, 22, 24]);
    let mark = if rng.percent(70) { wire::FAST_OPEN_MARK } else { other_mark(rng) };
    let mut option = experiment(rng, mark, length);
    if length < 4 && rng.percent(75) {
        // the whole mark, though the option ends before it does
        option.truncate(2);
        option.extend_from_slice(&mark);
    }
    option
}

/// An option area that is about the experimental kind: one such option, or one that mixes the
/// codings up, beside options of both codings in any order. `cookie` is one that would be right.
pub fn experiment_area(rng: &mut Rng, cookie: &[u8]) -> Vec<u8> {
    let first = match rng.below(12) {
        0 => Coding::New.option(&[&wire::FAST_OPEN_MARK[..], cookie].concat()),
        1 => [&[wire::EXPERIMENT, 2 + cookie.len() as u8][..], cookie].concat(),
        2 => [&[wire::EXPERIMENT, 4 + cookie.len() as u8][..], &other_mark(rng), cookie].concat(),
        _ => wild_experiment(rng),
    };
    let mut options = vec![first];
    for _ in 0..rng.below(3) {
        let (place, coding) = (rng.pick(&[0, 1, 1, 1]), rng.pick(&CODINGS));
        options.insert(place, fast_open(rng, coding, cookie));
    }
    let mut area = options.concat();
    if rng.percent(25) {
        area.truncate(4 * rng.index(area.len().min(40) / 4 + 1));
    } else {
        pad_in_front(&mut area);
    }
    area
}

/// An option area that is about what its reading tells: which options are skipped before and
/// behind the one used, and where it ends. `cookie` is one that would be right.
pub fn telling_area(rng: &mut Rng, cookie: &[u8], codings: Codings) -> Vec<u8> {
    if rng.percent(50) {
        return ending_area(rng, cookie, codings);
    }
    let coding = some_coding(rng, codings);
    let first = if rng.percent(30) { too_long(rng, coding) } else { skipped(rng, coding) };
    let mut room = 40 - first.len();
    let mut options = vec![first];
    for _ in 0..rng.within(1, 6) {
        let option = telling(rng, cookie, codings);
        if option.len() <= room {
            room -= option.len();
            options.insert(rng.index(options.len() + 1), option);
        }
    }
    area_with(rng, &options)
}

/// An option area whose reading ends at any place, with options before it and what looks like
/// them behind.
fn ending_area(rng: &mut Rng, cookie: &[u8], codings: Codings) -> Vec<u8> {
    let any = 4 * rng.within(1, 10) as usize;
    let room = rng.pick(&[any, 40]);
    let end = rng.index(room);
    let mut area = Vec::new();
    while area.len() < end {
        let option = telling(rng, cookie, codings);
        let fits = option.len() <= end - area.len();
        area.extend(if fits { option } else { vec![wire::NO_OPERATION] });
    }
    area.extend(ending(rng, room - end));
    while area.len() < room {
        area.extend(telling(rng, cookie, codings));
    }
    area.truncate(room);
    area
}

/// A Fast Open option of a length that counts or doesn't, or now and then any other option.
fn telling(rng: &mut Rng, cookie: &[u8], codings: Codings) -> Vec<u8> {
    let coding = some_coding(rng, codings);
    match rng.below(8) {
        0..=2 => fast_open(rng, coding, cookie),
        3..=6 => skipped(rng, coding),
        _ => bystander(rng),
    }
}

/// What ends a reading when so many bytes are left: kind 0, or an option whose length doesn't
/// fit; now and then one whose length just does.
fn ending(rng: &mut Rng, left: usize) -> Vec<u8> {
    if rng.percent(15) {
        return vec![wire::END_OF_LIST];
    }
    let any = rng.within(2, 255) as u8;
    let other = rng.pick(&[wire::MSS, any]);
    let kind = rng.pick(&[wire::FAST_OPEN, wire::EXPERIMENT, other]);
    let left = left as u8;
    let length = rng.pick(&[0, 1, left, left + 1, left + 1, 41, 255]);
    let mark: &[u8] = if kind == wire::EXPERIMENT { &wire::FAST_OPEN_MARK } else { &[] };
    [&[kind, length], mark].concat()
}

/// Whole words, of which there may be ten, so that the last option ends, or is cut, exactly at
/// the end.
fn pad_in_front(area: &mut Vec<u8>) {
    let over = area.len().next_multiple_of(4) - area.len();
    area.splice(0..0, std::iter::repeat_n(wire::NO_OPERATION, over));
    area.truncate(40);
}

/// An option area of any sort: every kind and length, repeated, cut off, or plain noise.
/// `cookie` is one that would be right.
pub fn wild_area(rng: &mut Rng, cookie: &[u8]) -> Vec<u8> {
    let mut area = Vec::new();
    let room = 4 * rng.index(11);
    if rng.percent(10) {
        return rng.bytes(room);
    }
    while area.len() < room {
        match rng.below(13) {
            0 | 1 => area.push(wire::NO_OPERATION),
            2 if rng.percent(30) => area.push(wire::END_OF_LIST),
            3 | 4 => area.extend(rng.pick(&CODINGS).option(cookie)),
            5 => area.extend(rng.pick(&CODINGS).option(&[])),
            6 => {
                let length = rng.below(41) as u8;
                area.extend(option(rng, wire::FAST_OPEN, &[length]));
            }
            7 => {
                let length = rng.below(41) as u8;
                area.extend(option(rng, wire::MSS, &[length]));
            }
            8 => area.extend(option(rng, wire::MSS, &[4])),
            9 => {
                let (kind, length) = (rng.next() as u8, rng.below(41) as u8);
                area.extend(option(rng, kind, &[length]));
            }
            10 => area.extend(bystander(rng)),
            11 => area.extend(wild_experiment(rng)),
            _ => {
                let kind = rng.pick(&[wire::FAST_OPEN, wire::EXPERIMENT, wire::MSS, 8, 255]);
                area.push(kind);
                area.push(rng.pick(&[0, 1, 2, 3, 6, 10, 18, 38, 39, 40, 41, 255]));
            }
        }
    }
    if rng.percent(50) {
        // cut at the end
        area.truncate(room);
    } else {
        pad_in_front(&mut area);
    }
    area
}

/// Noise, sometimes with a sound header and a right checksum.
pub fn noise(rng: &mut Rng, source: &[u8], destination: &[u8], port: u16) -> Vec<u8> {
    let length = match rng.below(10) {
        0 => rng.pick(&[0, 1, 19, 20, 21, 1519, 1520, 1521]),
        1 => rng.within(200, 1700),
        _ => rng.within(0, 90),
    };
    let mut bytes = rng.bytes(length as usize);
    if bytes.len() >= wire::HEADER && rng.percent(80) {
        if rng.percent(70) {
            bytes[12] = (rng.within(5, 9) as u8) << 4;
        }
        if rng.percent(85) {
            bytes[2..4].copy_from_slice(&port.to_be_bytes());
        }
        bytes[16..18].fill(0);
        let sum = wire::checksum(source, destination, &bytes);
        bytes[16..18].copy_from_slice(&sum.to_be_bytes());
    }
    bytes
}

#[cfg(test)]
mod tests {
    use super::*;
    use std::collections::BTreeSet;

    #[test]
    fn experiment_areas_have_everything() {
        let cookie = [1, 2, 3, 4, 5, 6, 7, 8];
        let [new, older] = CODINGS.map(|coding| coding.option(&cookie));
        let mut rng = Rng(1);
        let mut met = BTreeSet::new();
        let [mut new_first, mut older_first] = [0; 2];
        for _ in 0..20_000 {
            let area = experiment_area(&mut rng, &cookie);
            assert!(area.len() <= 40 && area.len().is_multiple_of(4));
            for (at, window) in area.windows(4).enumerate().filter(|(_, window)| window[0] == 254) {
                let cut = at + usize::from(window[1]) > area.len();
                let off = (window[2] ^ 0xf9).count_ones() + (window[3] ^ 0x89).count_ones();
                met.insert((window[1], cut, off.min(2)));
            }
            let place = |option: &[u8]| area.windows(option.len()).position(|window| window == option);
            if let (Some(new), Some(older)) = (place(&new), place(&older)) {
                *(if new < older { &mut new_first } else { &mut older_first }) += 1;
            }
        }
        for length in 0..=40 {
            // with the mark, one bit away from it, and with quite another
            for off in 0..=2 {
                assert!(met.contains(&(length, false, off)), "{length} {off}");
            }
            assert!(met.contains(&(length, true, 0)) || length <= 4, "{length} cut off");
        }
        assert!(new_first >= 100 && older_first >= 100);
    }

    /// The options that a reading skips: where each begins, its kind and its length.
    fn skipped_in(area: &[u8]) -> Vec<(usize, u8, u8)> {
        let reading = |end: usize| wire::read_options(&area[..end], Codings::Both).reading;
        let mut skipped = Vec::new();
        for end in 1..=area.len() {
            // Without its last byte the option doesn't fit.
            let cut = reading(end - 1);
            if reading(end).skipped > cut.skipped {
                skipped.push((cut.broken, area[cut.broken - 1], area[cut.broken]));
            }
        }
        skipped
    }

    #[test]
    fn telling_areas_have_everything() {
        let cookie = [1, 2, 3, 4, 5, 6, 7, 8];
        let mut rng = Rng(1);
        let (mut skips, mut breaks) = (BTreeSet::new(), BTreeSet::new());
        let [mut most, mut hidden] = [0; 2];
        for _ in 0..40_000 {
            let mut area = telling_area(&mut rng, &cookie, Codings::Both);
            assert!(area.len() <= 40 && area.len().is_multiple_of(4));
            let reading = wire::read_options(&area, Codings::Both).reading;
            for (place, kind, length) in skipped_in(&area) {
                let side = if reading.used == 0 { None } else { Some(place < reading.used) };
                skips.insert((kind, length, side));
            }
            most = most.max(reading.skipped);
            if reading.broken > 0 {
                let kind = area[reading.broken - 1];
                let sort = if kind == 34 || kind == 254 { kind } else { 0 };
                let length = area.get(reading.broken).map(|&length| length.min(2));
                breaks.insert((reading.broken, sort, length));
            } else if let Some(end) = area.iter().position(|&byte| byte == wire::END_OF_LIST) {
                area[end] = wire::NO_OPERATION;
                hidden += usize::from(wire::read_options(&area, Codings::Both).reading != reading);
            }
        }
        for (kind, prefix) in [(34, 2), (254, 4)] {
            for cookie in (1..=38 - prefix).filter(|n| *n > 16 || *n < 4 || n % 2 == 1) {
                for side in [None, Some(false), Some(true)] {
                    assert!(skips.contains(&(kind, prefix + cookie, side)), "{kind} {cookie} {side:?}");
                }
            }
        }
        for kind in [34, 254, 0] {
            for (place, length) in (1..40).flat_map(|place| [0, 1, 2].map(|length| (place, length))) {
                assert!(breaks.contains(&(place, kind, Some(length))), "{kind} {length} at {place}");
            }
            for place in (4..=40).step_by(4) {
                assert!(breaks.contains(&(place, kind, None)), "{kind} at {place}");
            }
        }
        assert!(most >= 8 && hidden >= 500, "{most} {hidden}");
    }
}
