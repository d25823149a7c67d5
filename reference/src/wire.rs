//! TCP headers, options and the checksum, for reading and for writing.

pub const FIN: u8 = 0x01;
pub const SYN: u8 = 0x02;
pub const RST: u8 = 0x04;
pub const ACK: u8 = 0x10;

pub const HEADER: usize = 20;
pub const LONGEST_SEGMENT: usize = 1520;
pub const WINDOW: u16 = 65_535;

pub const END_OF_LIST: u8 = 0;
pub const NO_OPERATION: u8 = 1;
pub const MSS: u8 = 2;
pub const FAST_OPEN: u8 = 34;
/// Shared by experiments, each of which begins its options with two bytes of its own.
pub const EXPERIMENT: u8 = 254;
/// The two bytes of the Fast Open experiment.
pub const FAST_OPEN_MARK: [u8; 2] = [0xf9, 0x89];

pub const PROTOCOL_TCP: u8 = 6;

/// The one numbering of refusals, for the listener, the client and captures alike.
#[derive(Clone, Copy, Debug, PartialEq, Eq)]
pub enum Refusal {
    Malformed = 1,
    Address = 2,
    Checksum = 3,
    Port = 4,
    Time = 5,
    Flags = 6,
    NotARepeat = 7,
    TableFull = 8,
    NoSuchConnection = 9,
    Number = 10,
    Output = 11,
    Range = 12,
    NeverStarted = 13,
    CutRecord = 14,
    BadCapture = 15,
}

impl Refusal {
    pub fn number(self) -> u8 {
        self as u8
    }
}

/// The latest time a call may carry, in ms.
pub const LAST_TIME: u64 = 1 << 48;

pub fn check_time(clock: u64, time: u64) -> Result<(), Refusal> {
    if time < clock || time > LAST_TIME {
        return Err(Refusal::Time);
    }
    Ok(())
}

/// A segment whose length and data offset are sound.
#[derive(Clone, Copy)]
pub struct Segment<'a> {
    bytes: &'a [u8],
    header: usize,
}

impl<'a> Segment<'a> {
    pub fn parse(bytes: &'a [u8]) -> Option<Segment<'a>> {
        if bytes.len() < HEADER || bytes.len() > LONGEST_SEGMENT {
            return None;
        }
        let header = 4 * usize::from(bytes[12] >> 4);
        if header < HEADER || header > bytes.len() {
            return None;
        }
        Some(Segment { bytes, header })
    }

    fn u16_at(&self, at: usize) -> u16 {
        u16::from_be_bytes([self.bytes[at], self.bytes[at + 1]])
    }

    fn u32_at(&self, at: usize) -> u32 {
        u32::from(self.u16_at(at)) << 16 | u32::from(self.u16_at(at + 2))
    }

    pub fn source_port(&self) -> u16 {
        self.u16_at(0)
    }

    pub fn destination_port(&self) -> u16 {
        self.u16_at(2)
    }

    pub fn sequence(&self) -> u32 {
        self.u32_at(4)
    }

    pub fn acknowledgement(&self) -> u32 {
        self.u32_at(8)
    }

    pub fn flags(&self) -> u8 {
        self.bytes[13]
    }

    pub fn options(&self) -> &'a [u8] {
        &self.bytes[HEADER..self.header]
    }

    pub fn payload(&self) -> &'a [u8] {
        &self.bytes[self.header..]
    }

    /// RFC 1071's test: the sum with the checksum field in it is all ones. A field of
    /// FFFF thus passes wherever 0000 does, both being zero in ones' complement.
    pub fn checksum_holds(&self, source: &[u8], destination: &[u8]) -> bool {
        fold(pseudo_header(source, destination, self.bytes.len()) + words(self.bytes)) == 0xffff
    }
}

/// How a Fast Open option is written. The codings differ only in what stands before the cookie.
#[derive(Clone, Copy, Debug, PartialEq, Eq)]
pub enum Coding {
    New,
    /// That of the experiment, from before the option had a kind of its own.
    Older,
}

impl Coding {
    fn kind(self) -> u8 {
        match self {
            Coding::New => FAST_OPEN,
            Coding::Older => EXPERIMENT,
        }
    }

    /// What stands between the length byte and the cookie.
    fn mark(self) -> &'static [u8] {
        match self {
            Coding::New => &[],
            Coding::Older => &FAST_OPEN_MARK,
        }
    }

    /// How many bytes stand before the cookie.
    pub fn prefix(self) -> usize {
        2 + self.mark().len()
    }

    /// The cookie of an option in this coding, empty where it asks for one; `None` where the
    /// option's length doesn't count.
    fn cookie(self, option: &[u8]) -> Option<&[u8]> {
        let cookie = &option[self.prefix()..];
        let counts = matches!(cookie.len(), 0 | 4 | 6 | 8 | 10 | 12 | 14 | 16);
        counts.then_some(cookie)
    }

    /// Writes the option with this cookie to the front of `out` and says how long it is.
    pub fn write(self, cookie: &[u8], out: &mut [u8]) -> usize {
        let (prefix, length) = (self.prefix(), self.prefix() + cookie.len());
        out[0] = self.kind();
        out[1] = length as u8;
        out[2..prefix].copy_from_slice(self.mark());
        out[prefix..length].copy_from_slice(cookie);
        length
    }

    /// The option with this cookie.
    pub fn option(self, cookie: &[u8]) -> Vec<u8> {
        let mut option = vec![0; self.prefix() + cookie.len()];
        self.write(cookie, &mut option);
        option
    }
}

/// The setting: which codings are read. An option in another one is of an unknown kind.
#[derive(Clone, Copy, Debug, PartialEq, Eq)]
pub enum Codings {
    New,
    Both,
}

impl Codings {
    /// The coding of a whole option, from its kind byte on, if it is a Fast Open option at all;
    /// its length may still not count.
    fn coding(self, option: &[u8]) -> Option<Coding> {
        let coding = match option[0] {
            FAST_OPEN => Coding::New,
            EXPERIMENT if self == Codings::Both => Coding::Older,
            _ => return None,
        };
        option[2..].starts_with(coding.mark()).then_some(coding)
    }
}

/// A Fast Open option that counts; an empty cookie asks for one.
#[derive(Clone, Copy, Debug, PartialEq, Eq)]
pub struct FastOpen<'a> {
    pub coding: Coding,
    /// Where the first cookie byte stands in the option area.
    pub at: usize,
    pub cookie: &'a [u8],
}

/// What the reading of an option area met, whatever came of it. A place is that of a kind byte,
/// counted from 1; 0 is none.
#[derive(Clone, Copy, Debug, Default, PartialEq, Eq)]
pub struct Reading {
    /// How many Fast Open options have a length that doesn't count.
    pub skipped: usize,
    /// Where the Fast Open option that is used begins.
    pub used: usize,
    /// Where reading broke off, at a length that doesn't fit.
    pub broken: usize,
}

#[derive(Clone, Copy, Debug, Default, PartialEq, Eq)]
pub struct Options<'a> {
    pub mss: Option<u16>,
    pub fast_open: Option<FastOpen<'a>>,
    pub reading: Reading,
}

/// Reads an option area up to its end, a kind 0, or the first option that doesn't fit.
/// Callers come here with a SYN only, so Fast Open without SYN is never seen.
pub fn read_options(area: &[u8], codings: Codings) -> Options<'_> {
    let mut found = Options::default();
    let mut at = 0;
    while at < area.len() && area[at] != END_OF_LIST {
        if area[at] == NO_OPERATION {
            at += 1;
            continue;
        }
        let Some(option) = whole_option(&area[at..]) else {
            found.reading.broken = at + 1;
            break;
        };
        found.take(option, at, codings);
        at += option.len();
    }
    found
}

/// The option at the front of what is left of an area, unless its length doesn't fit there.
fn whole_option(left: &[u8]) -> Option<&[u8]> {
    let length = usize::from(*left.get(1)?);
    left.get(..length).filter(|_| length >= 2)
}

impl<'a> Options<'a> {
    /// Takes the whole option that begins at `at`; of those that count, the first of each sort.
    fn take(&mut self, option: &'a [u8], at: usize, codings: Codings) {
        if let [MSS, 4, high, low] = *option {
            self.mss = self.mss.or(Some(u16::from_be_bytes([high, low])));
        }
        let Some(coding) = codings.coding(option) else { return };
        match coding.cookie(option) {
            None => self.reading.skipped += 1,
            Some(cookie) if self.fast_open.is_none() => {
                self.fast_open = Some(FastOpen { coding, at: at + coding.prefix(), cookie });
                self.reading.used = at + 1;
            }
            Some(_) => {}
        }
    }
}

/// Plain sum of big-endian 16-bit words, an odd last byte padded with zero.
fn words(bytes: &[u8]) -> u64 {
    // A block's sum fits 32 bits, which lets the compiler add many words at once.
    bytes.chunks(1 << 16).map(|block| u64::from(block_words(block))).sum()
}

fn block_words(block: &[u8]) -> u32 {
    let pairs = block.chunks_exact(2);
    let odd = pairs.remainder().first().map_or(0, |&last| u32::from(last) << 8);
    pairs.fold(odd, |sum, pair| sum + u32::from(u16::from_be_bytes([pair[0], pair[1]])))
}

/// Carries come back in at the low end; only a sum of nothing but zeros folds to 0.
fn fold(mut sum: u64) -> u16 {
    while sum > 0xffff {
        sum = (sum >> 16) + (sum & 0xffff);
    }
    sum as u16
}

/// The ones' complement sum of a sum so far and more bytes.
pub fn add_to_sum(sum: u16, bytes: &[u8]) -> u16 {
    fold(u64::from(sum) + words(bytes))
}

/// IPv4 and IPv6 lay the pseudo-header out differently, but its words add up to the same.
fn pseudo_header(source: &[u8], destination: &[u8], length: usize) -> u64 {
    words(source) + words(destination) + u64::from(PROTOCOL_TCP) + length as u64
}

/// The value of the checksum field, given that the field in `segment` is zero.
pub fn checksum(source: &[u8], destination: &[u8], segment: &[u8]) -> u16 {
    !fold(pseudo_header(source, destination, segment.len()) + words(segment))
}

/// What the segments written here differ in.
pub struct Header {
    pub source_port: u16,
    pub destination_port: u16,
    pub sequence: u32,
    pub acknowledgement: u32,
    pub flags: u8,
}

/// Fills in the 20 header bytes of `segment`, whose options (`options` bytes of them) and
/// data are in place already, with a full window and a right checksum.
pub fn finish(segment: &mut [u8], header: &Header, options: usize, source: &[u8], destination: &[u8]) {
    segment[0..2].copy_from_slice(&header.source_port.to_be_bytes());
    segment[2..4].copy_from_slice(&header.destination_port.to_be_bytes());
    segment[4..8].copy_from_slice(&header.sequence.to_be_bytes());
    segment[8..12].copy_from_slice(&header.acknowledgement.to_be_bytes());
    segment[12] = (((HEADER + options) / 4) << 4) as u8;
    segment[13] = header.flags;
    segment[14..16].copy_from_slice(&WINDOW.to_be_bytes());
    segment[16..20].fill(0);
    let sum = checksum(source, destination, segment);
    segment[16..18].copy_from_slice(&sum.to_be_bytes());
}

/// The four bytes of the MSS option.
pub fn mss_option(mss: u16) -> [u8; 4] {
    let [high, low] = mss.to_be_bytes();
    [MSS, 4, high, low]
}

#[cfg(test)]
mod tests {
    use super::*;

    fn cookie(area: &[u8]) -> Option<&[u8]> {
        read_options(area, Codings::New).fast_open.map(|option| option.cookie)
    }

    /// The option used when both codings are read: its coding and its cookie.
    fn used(area: &[u8]) -> Option<(Coding, &[u8])> {
        read_options(area, Codings::Both).fast_open.map(|option| (option.coding, option.cookie))
    }

    const REQUEST: Option<(Coding, &[u8])> = Some((Coding::New, &[]));
    const OLDER_REQUEST: Option<(Coding, &[u8])> = Some((Coding::Older, &[]));

    #[test]
    fn first_that_counts_wins() {
        let area = [2, 3, 9, 2, 4, 1, 2, 2, 4, 3, 4, 34, 3, 0, 34, 2, 34, 6, 1, 2, 3, 4];
        for codings in [Codings::New, Codings::Both] {
            let options = read_options(&area, codings);
            assert_eq!(options.mss, Some(0x0102));
            assert_eq!(options.fast_open, Some(FastOpen { coding: Coding::New, at: 16, cookie: &[] }));
        }
    }

    #[test]
    fn first_that_counts_of_either_coding_wins() {
        let [new, older] = [&[34, 6, 1, 2, 3, 4][..], &[254, 8, 0xf9, 0x89, 5, 6, 7, 8]];
        let [new_skipped, older_skipped] = [&[34, 4, 1, 2][..], &[254, 6, 0xf9, 0x89, 1, 2]];
        let other = &[254, 8, 0xf9, 0x88, 9, 9, 9, 9][..];
        let is_new = (Coding::New, &[1, 2, 3, 4][..]);
        let is_older = (Coding::Older, &[5, 6, 7, 8][..]);
        for (area, both, new_only) in [
            ([new, older], Some(is_new), Some(is_new)),
            ([older, new], Some(is_older), Some(is_new)),
            ([older_skipped, new], Some(is_new), Some(is_new)),
            ([new_skipped, older], Some(is_older), None),
            ([older_skipped, older], Some(is_older), None),
            ([new_skipped, new], Some(is_new), Some(is_new)),
            ([other, older], Some(is_older), None),
            ([other, new], Some(is_new), Some(is_new)),
            ([older_skipped, new_skipped], None, None),
        ] {
            let area = area.concat();
            assert_eq!(used(&area), both, "{area:?}");
            assert_eq!(cookie(&area), new_only.map(|used| used.1), "{area:?}");
        }
    }

    #[test]
    fn fast_open_lengths() {
        for length in 2..=40usize {
            let mut area = vec![7; length];
            area[0] = 34;
            area[1] = length as u8;
            let counts = matches!(length, 2 | 6 | 8 | 10 | 12 | 14 | 16 | 18);
            assert_eq!(cookie(&area), counts.then(|| &area[2..]), "{length}");
            assert_eq!(used(&area), counts.then(|| (Coding::New, &area[2..])), "{length}");
        }
    }

    #[test]
    fn older_lengths() {
        for length in 4..=40usize {
            let mut area = vec![7; length];
            area[..4].copy_from_slice(&[254, length as u8, 0xf9, 0x89]);
            let counts = matches!(length, 4 | 8 | 10 | 12 | 14 | 16 | 18 | 20);
            assert_eq!(used(&area), counts.then(|| (Coding::Older, &area[4..])), "{length}");
            assert_eq!(cookie(&area), None, "{length}");
            assert_eq!(Codings::Both.coding(&area), Some(Coding::Older), "else skipped {length}");
            assert_eq!(Codings::New.coding(&area), None, "unknown {length}");
            // Whatever it is, it is passed over by its length.
            area.extend([34, 2]);
            assert_eq!(cookie(&area), Some(&[][..]), "{length}");
            assert_eq!(used(&area).map(|used| used.0 == Coding::Older), Some(counts), "{length}");
        }
    }

    #[test]
    fn cookies_have_their_place() {
        for before in 0..=20 {
            let mut area = vec![1; before];
            area.extend([254, 12, 0xf9, 0x89, 1, 2, 3, 4, 5, 6, 7, 8]);
            let option = read_options(&area, Codings::Both).fast_open.unwrap();
            assert_eq!(option.at, before + 4);
            assert_eq!(area[option.at..], *option.cookie);
        }
    }

    #[test]
    fn other_experiments() {
        let [high, low] = FAST_OPEN_MARK;
        let mut marks = vec![[low, high], [high, high], [low, low], [0, 0], [0xff, 0xff]];
        marks.extend((0..8).flat_map(|bit| [[high ^ 1 << bit, low], [high, low ^ 1 << bit]]));
        for mark in marks {
            for length in 4..=38 {
                let mut area = vec![7; length];
                area[..4].copy_from_slice(&[254, length as u8, mark[0], mark[1]]);
                assert_eq!(Codings::Both.coding(&area), None, "unknown, so no skip: {mark:?} {length}");
                assert_eq!(used(&area), None);
                area.extend([34, 2]);
                assert_eq!(used(&area), REQUEST, "{mark:?} {length}");
            }
        }
        // The mark beyond the option's end is none.
        assert_eq!(used(&[254, 3, 0xf9, 34, 2]), REQUEST);
        assert_eq!(used(&[254, 3, 0xf9, 0x89, 2, 34, 2]), REQUEST, "0x89 is a kind");
        assert_eq!(used(&[254, 2, 34, 2]), REQUEST);
        assert_eq!(used(&[254, 2, 0xf9, 0x89, 34, 2]), None, "0x89 is a length past the end");
        for option in [&[254, 2][..], &[254, 3, 0xf9]] {
            assert_eq!(Codings::Both.coding(option), None);
        }
    }

    #[test]
    fn older_cut_off() {
        let whole = [254, 12, 0xf9, 0x89, 1, 2, 3, 4, 5, 6, 7, 8];
        assert_eq!(used(&whole), Some((Coding::Older, &whole[4..])));
        for length in 0..whole.len() {
            assert_eq!(used(&whole[..length]), None, "{length}");
            let after = [&[254, 4, 0xf9, 0x89], &whole[..length]].concat();
            assert_eq!(used(&after), OLDER_REQUEST, "earlier options stand");
        }
        assert_eq!(used(&[254, 4, 0xf9]), None);
        assert_eq!(used(&[254, 0, 0xf9, 0x89, 34, 2]), None);
        assert_eq!(used(&[254, 1, 0xf9, 0x89, 34, 2]), None);
    }

    #[test]
    fn written_options() {
        assert_eq!(Coding::New.option(&[]), [34, 2]);
        assert_eq!(Coding::New.option(&[1, 2, 3, 4]), [34, 6, 1, 2, 3, 4]);
        assert_eq!(Coding::Older.option(&[]), [254, 4, 0xf9, 0x89]);
        assert_eq!(Coding::Older.option(&[1, 2, 3, 4]), [254, 8, 0xf9, 0x89, 1, 2, 3, 4]);
        let mut out = [0xa5; 9];
        assert_eq!(Coding::Older.write(&[1, 2, 3, 4], &mut out), 8);
        assert_eq!(out, [254, 8, 0xf9, 0x89, 1, 2, 3, 4, 0xa5]);
    }

    #[test]
    fn mss_lengths() {
        for length in 2..=40usize {
            let mut area = vec![7; length];
            area[0] = 2;
            area[1] = length as u8;
            assert_eq!(read_options(&area, Codings::New).mss, (length == 4).then_some(0x0707));
        }
    }

    #[test]
    fn reading_ends() {
        assert_eq!(cookie(&[0, 34, 2, 1]), None, "kind 0");
        assert_eq!(cookie(&[1, 34, 2, 1]), Some(&[][..]), "kind 1");
        assert_eq!(cookie(&[5, 1, 34, 2]), None, "length 1");
        assert_eq!(cookie(&[5, 0, 34, 2]), None, "length 0");
        assert_eq!(cookie(&[34, 2, 5, 9]), Some(&[][..]), "earlier options stand");
        assert_eq!(cookie(&[34, 6, 1, 2, 3]), None, "past the area");
        assert_eq!(cookie(&[1, 1, 1, 34]), None, "kind without a length");
        assert_eq!(read_options(&[], Codings::New), Options::default());
    }

    /// How many are skipped, where the one used begins, and where reading broke off.
    fn told(area: &[u8], codings: Codings) -> [usize; 3] {
        let Reading { skipped, used, broken } = read_options(area, codings).reading;
        [skipped, used, broken]
    }

    #[test]
    fn what_a_reading_tells() {
        for (area, expected) in [
            (&[34, 3, 0, 34, 2][..], [1, 4, 0]),
            (&[2, 4, 5, 180, 34, 0], [0, 0, 5]),
            (&[34], [0, 0, 1]),
            // Kind 0 ends the list, and is no break.
            (&[0, 34, 3, 0, 34, 2, 34], [0, 0, 0]),
            (&[34, 2, 0, 34, 3, 0, 34], [0, 1, 0]),
            (&[34, 3, 0, 0, 34], [1, 0, 0]),
            (&[1, 0], [0, 0, 0]),
            (&[], [0, 0, 0]),
            // Kind 1 moves the places.
            (&[1, 1, 1, 1], [0, 0, 0]),
            (&[1, 34, 2], [0, 2, 0]),
            (&[1, 34, 3, 1, 1, 34, 2, 1, 34], [1, 6, 9]),
            // Skipped before the one used, behind it, or with none.
            (&[34, 2, 34, 3, 0], [1, 1, 0]),
            (&[34, 3, 0, 34, 4, 0, 0, 34, 2, 34, 5, 0, 0, 0], [3, 8, 0]),
            (&[34, 3, 0, 34, 4, 0, 0], [2, 0, 0]),
            // A second one that counts is neither skipped nor used.
            (&[34, 2, 34, 2, 34, 6, 0, 0, 0, 0], [0, 1, 0]),
            // Of any kind; earlier options stand.
            (&[5], [0, 0, 1]),
            (&[5, 0, 34, 2], [0, 0, 1]),
            (&[5, 1, 34, 2], [0, 0, 1]),
            (&[5, 5, 34, 2], [0, 0, 1]),
            (&[2, 0, 34, 2], [0, 0, 1]),
            (&[255, 255], [0, 0, 1]),
            (&[34, 3, 0, 34, 2, 2], [1, 4, 6]),
            (&[34, 2, 34, 4, 0, 0, 8, 10, 0], [1, 1, 7]),
            // One whose own length doesn't fit is a break, not a skip.
            (&[34, 3], [0, 0, 1]),
            (&[34, 3, 0, 34, 6, 0, 0, 0], [1, 0, 4]),
            (&[34, 2, 34, 1], [0, 1, 3]),
            // The size is no Fast Open option, whatever its length.
            (&[2, 3, 0, 2, 2, 34, 2], [0, 6, 0]),
        ] {
            for codings in [Codings::New, Codings::Both] {
                assert_eq!(told(area, codings), expected, "{area:?}");
            }
        }
    }

    #[test]
    fn what_a_reading_tells_of_the_older_coding() {
        for (area, both, new_only) in [
            (&[254, 6, 0xf9, 0x89, 0, 0, 34, 2][..], [1, 7, 0], [0, 7, 0]),
            (&[254, 4, 0xf9, 0x89, 34, 2], [0, 1, 0], [0, 5, 0]),
            (&[254, 5, 0xf9, 0x89, 0, 34, 3, 0, 254, 4, 0xf9, 0x89], [2, 9, 0], [1, 0, 0]),
            (&[34, 2, 254, 6, 0xf9, 0x89, 0, 0, 34, 3, 0], [2, 1, 0], [1, 1, 0]),
            // Another experiment's is no Fast Open option, nor one too short for the mark.
            (&[254, 6, 0xf9, 0x88, 0, 0, 34, 2], [0, 7, 0], [0, 7, 0]),
            (&[254, 3, 0xf9, 34, 2], [0, 4, 0], [0, 4, 0]),
            (&[254, 2, 34, 2], [0, 3, 0], [0, 3, 0]),
            (&[254, 2, 0xf9, 0x89, 34, 2], [0, 0, 3], [0, 0, 3]),
            // A length that doesn't fit breaks off under either setting.
            (&[254], [0, 0, 1], [0, 0, 1]),
            (&[254, 1, 0xf9, 0x89], [0, 0, 1], [0, 0, 1]),
            (&[254, 6, 0xf9, 0x89, 0], [0, 0, 1], [0, 0, 1]),
            (&[254, 7, 0xf9, 0x89, 0, 0, 0, 254, 8, 0xf9, 0x89], [1, 0, 8], [0, 0, 8]),
        ] {
            assert_eq!(told(area, Codings::Both), both, "{area:?}");
            assert_eq!(told(area, Codings::New), new_only, "{area:?}");
        }
        for codings in [Codings::New, Codings::Both] {
            assert_eq!(told(&[34, 3, 0].repeat(13), codings), [13, 0, 0]);
        }
        let eight = [254, 5, 0xf9, 0x89, 0].repeat(8);
        assert_eq!([told(&eight, Codings::Both), told(&eight, Codings::New)], [[8, 0, 0], [0; 3]]);
    }

    #[test]
    fn every_length_at_every_place() {
        let new: fn(usize) -> bool = |length| matches!(length, 2 | 6 | 8 | 10 | 12 | 14 | 16 | 18);
        let older: fn(usize) -> bool = |length| matches!(length, 4 | 8 | 10 | 12 | 14 | 16 | 18 | 20);
        // What an option begins with, the least length that makes it a Fast Open one under a
        // setting, and which of its lengths count then.
        for (kind, mark, codings, least, counts) in [
            (34, &[][..], Codings::New, 2, new),
            (34, &[], Codings::Both, 2, new),
            (254, &[0xf9, 0x89], Codings::Both, 4, older),
            (254, &[0xf9, 0x89], Codings::New, 41, older),
            (254, &[0xf9, 0x88], Codings::Both, 41, older),
            (253, &[0xf9, 0x89], Codings::Both, 41, older),
        ] {
            for (length, before) in (0..=41).flat_map(|length| (0..40).map(move |before| (length, before))) {
                let mut option = [&[kind, length as u8], mark].concat();
                // kind 1 inside it and behind it
                option.truncate(length.max(2));
                let mut area = [vec![1; before], option].concat();
                area.resize(40, 1);
                let place = before + 1;
                let expected = match length {
                    0 | 1 => [0, 0, place],
                    _ if length > 40 - before => [0, 0, place],
                    _ if length < least => [0; 3],
                    _ if counts(length) => [0, place, 0],
                    _ => [1, 0, 0],
                };
                assert_eq!(told(&area, codings), expected, "{kind} {length} at {place}");
                if before > 0 {
                    area[0] = 0;
                    assert_eq!(told(&area, codings), [0; 3], "kind 0, then {kind} {length} at {place}");
                }
            }
        }
    }

    #[test]
    fn sums() {
        // RFC 1071's own example.
        assert_eq!(add_to_sum(0, &[0x00, 0x01, 0xf2, 0x03, 0xf4, 0xf5, 0xf6, 0xf7]), 0xddf2);
        assert_eq!(add_to_sum(0, &[0, 0, 0]), 0);
        assert_eq!(add_to_sum(0xffff, &[0xff, 0xff]), 0xffff);
        assert_eq!(add_to_sum(0xffff, &[0, 1]), 1);
        assert_eq!(add_to_sum(0, &[0x12]), 0x1200);
    }

    #[test]
    fn segment_bounds() {
        let with = |length: usize, offset: u8| {
            let mut bytes = vec![0; length];
            if length > 12 {
                bytes[12] = offset << 4 | 0x0f;
            }
            Segment::parse(&bytes).is_some()
        };
        assert!(!with(0, 5) && !with(19, 5) && with(20, 5));
        assert!(with(1520, 5) && with(1520, 15) && !with(1521, 5));
        assert!(!with(60, 4) && !with(60, 0) && with(60, 15) && !with(59, 15));
        assert!(!with(23, 6) && with(24, 6));
    }

    #[test]
    fn both_zeros_pass_as_a_checksum() {
        let (source, destination) = ([1, 2, 3, 4], [5, 6, 7, 8]);
        let mut bytes = [0; 20];
        bytes[12] = 5 << 4;
        // The urgent pointer is chosen so that the rest already adds up to all ones.
        let rest = checksum(&source, &destination, &bytes);
        bytes[18..20].copy_from_slice(&rest.to_be_bytes());
        assert_eq!(checksum(&source, &destination, &bytes), 0);
        for (field, holds) in [(0u16, true), (0xffff, true), (1, false), (0xfffe, false)] {
            bytes[16..18].copy_from_slice(&field.to_be_bytes());
            let segment = Segment::parse(&bytes).unwrap();
            assert_eq!(segment.checksum_holds(&source, &destination), holds);
        }
    }
}
