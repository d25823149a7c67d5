//! Classic pcap files of raw IP packets: walking one that is in memory, and writing one.

use crate::wire::Refusal;

pub const MAGIC: u32 = 0xa1b2_c3d4;
pub const FILE_HEADER: usize = 24;
pub const RECORD_HEADER: usize = 16;
/// The link type of packets that begin with their IP header.
pub const RAW_IP: u32 = 101;
/// The most bytes that a record has of its packet.
pub const SNAP_LENGTH: u32 = 4096;

/// Which byte of a number comes first.
#[derive(Clone, Copy, Debug, PartialEq, Eq)]
pub enum Order {
    Low,
    High,
}

impl Order {
    fn number(self, bytes: &[u8]) -> u32 {
        let bytes = [bytes[0], bytes[1], bytes[2], bytes[3]];
        match self {
            Order::Low => u32::from_le_bytes(bytes),
            Order::High => u32::from_be_bytes(bytes),
        }
    }

    pub fn bytes(self, number: u32) -> [u8; 4] {
        match self {
            Order::Low => number.to_le_bytes(),
            Order::High => number.to_be_bytes(),
        }
    }

    /// A file's order, if it has a header that is right. Version, zone, accuracy and snap length
    /// may be any.
    fn of(file: &[u8]) -> Option<Order> {
        let header = file.get(..FILE_HEADER)?;
        let order = [Order::Low, Order::High].into_iter().find(|order| order.number(header) == MAGIC)?;
        // The whole word: what some programs keep in its high bits makes it another link type.
        (order.number(&header[20..]) == RAW_IP).then_some(order)
    }
}

#[derive(Clone, Copy, Debug, PartialEq, Eq)]
pub struct Record<'a> {
    pub seconds: u32,
    pub microseconds: u32,
    /// How long the packet was, however much of it was captured.
    pub original: u32,
    pub bytes: &'a [u8],
}

impl Record<'_> {
    /// In whole ms, rounded down. Microseconds of a million and more count as they stand.
    pub fn time(&self) -> u64 {
        u64::from(self.seconds) * 1000 + u64::from(self.microseconds / 1000)
    }
}

/// A file's records in their order and then, where the file isn't as it should be, the refusal
/// that ends the walk.
pub struct Walk<'a> {
    file: &'a [u8],
    /// Where the next record begins, and in which order; nothing once the walk has ended.
    next: Option<(usize, Order)>,
    /// Told first, in place of all records.
    bad_header: bool,
}

impl<'a> Walk<'a> {
    pub fn new(file: &'a [u8]) -> Walk<'a> {
        let order = Order::of(file);
        Walk { file, next: order.map(|order| (FILE_HEADER, order)), bad_header: order.is_none() }
    }
}

/// The record that begins at a place, and where it ends.
fn record(file: &[u8], at: usize, order: Order) -> Result<(Record<'_>, usize), Refusal> {
    let begin = at + RECORD_HEADER;
    let header = file.get(at..begin).ok_or(Refusal::CutRecord)?;
    let captured = order.number(&header[8..]);
    if captured > SNAP_LENGTH {
        return Err(Refusal::BadCapture);
    }
    let end = begin + captured as usize;
    let bytes = file.get(begin..end).ok_or(Refusal::CutRecord)?;
    let (seconds, microseconds) = (order.number(header), order.number(&header[4..]));
    let original = order.number(&header[12..]);
    Ok((Record { seconds, microseconds, original, bytes }, end))
}

impl<'a> Iterator for Walk<'a> {
    type Item = Result<Record<'a>, Refusal>;

    fn next(&mut self) -> Option<Self::Item> {
        if std::mem::take(&mut self.bad_header) {
            return Some(Err(Refusal::BadCapture));
        }
        let (at, order) = self.next.take().filter(|&(at, _)| at < self.file.len())?;
        let read = record(self.file, at, order);
        self.next = read.as_ref().ok().map(|&(_, end)| (end, order));
        Some(read.map(|(record, _)| record))
    }
}

/// A record's header and bytes.
pub fn encode(record: &Record, captured: u32, order: Order) -> Vec<u8> {
    let header = [record.seconds, record.microseconds, captured, record.original];
    let mut bytes: Vec<u8> = header.into_iter().flat_map(|number| order.bytes(number)).collect();
    bytes.extend_from_slice(record.bytes);
    bytes
}

/// A file in the making, low byte first.
pub struct Writer {
    pub file: Vec<u8>,
}

impl Writer {
    pub fn new() -> Writer {
        // version 2.4, both halves in one word
        let header = [MAGIC, 4 << 16 | 2, 0, 0, SNAP_LENGTH, RAW_IP];
        Writer { file: header.into_iter().flat_map(|number| Order::Low.bytes(number)).collect() }
    }

    /// Adds a record, unless it is one that could not be read back.
    pub fn add(&mut self, record: &Record) -> Result<(), Refusal> {
        let captured = u32::try_from(record.bytes.len()).unwrap_or(u32::MAX);
        if captured > SNAP_LENGTH {
            return Err(Refusal::BadCapture);
        }
        self.file.extend(encode(record, captured, Order::Low));
        Ok(())
    }
}
