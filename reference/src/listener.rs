//! The listener: 64 connections between their opening and their hand-over.

use crate::aes::Schedule;
use crate::wire::{self, Coding, Codings, Header, Options, Reading, Refusal, Segment, ACK, FIN, RST, SYN};

pub const SLOTS: usize = 64;
pub const LEAST_OUTPUT: usize = 36;
pub const COOKIE: usize = 8;

const SHORT_ANSWER: usize = 24;
const COOKIE_ANSWER: usize = 36;
const RECEIVE_SPAN: u32 = 65_535;

/// The widest share, which leaves every slot to one address.
pub const WHOLE_SHARE: u32 = SLOTS as u32;

#[derive(Clone, Copy, Debug, PartialEq, Eq)]
pub enum Verdict {
    Early,
    Plain,
    Repeat,
}

#[derive(Clone, Copy, Debug, PartialEq, Eq)]
pub enum Kind {
    Opening(Verdict),
    Reset,
    Completion,
}

/// What a done segment call says.
#[derive(Clone, Copy, Debug, PartialEq, Eq)]
pub struct Reply {
    pub kind: Kind,
    pub accepted: usize,
    pub written: usize,
    /// Of an opening's options; nothing where there is no SYN.
    pub reading: Reading,
}

impl Reply {
    /// One that accepts, writes and tells nothing.
    pub fn bare(kind: Kind) -> Reply {
        Reply { kind, accepted: 0, written: 0, reading: Reading::default() }
    }
}

#[derive(Clone, Copy, Debug, PartialEq, Eq)]
pub enum Status {
    Free,
    Plain,
    Early { accepted: u32 },
    Held { until: u64 },
    Open,
}

/// Source address and port. The address stands in a block of 16 bytes, an IPv4 one with
/// zeros behind it; one listener knows one family, so no two addresses share a block.
#[derive(Clone, Copy, Debug, PartialEq, Eq)]
pub struct Name {
    block: u128,
    port: u16,
}

#[derive(Clone, Copy)]
pub struct Slot {
    pub name: Name,
    /// Their initial sequence number.
    pub irs: u32,
    /// Our initial sequence number.
    pub iss: u32,
    pub status: Status,
}

impl Slot {
    pub const FREE: Slot = Slot { name: Name { block: 0, port: 0 }, irs: 0, iss: 0, status: Status::Free };

    fn is_free(&self, time: u64) -> bool {
        match self.status {
            Status::Free => true,
            Status::Held { until } => until <= time,
            _ => false,
        }
    }

    pub fn is_pending(&self, time: u64) -> bool {
        match self.status {
            Status::Early { .. } => true,
            Status::Held { until } => until > time,
            _ => false,
        }
    }

    /// The next sequence number expected from them, for a plain or early slot only.
    pub fn expected(&self) -> Option<u32> {
        match self.status {
            Status::Plain => Some(self.irs.wrapping_add(1)),
            Status::Early { accepted } => Some(self.irs.wrapping_add(1).wrapping_add(accepted)),
            _ => None,
        }
    }

    pub fn address(&self, family: usize) -> Vec<u8> {
        self.name.block.to_be_bytes()[..family].to_vec()
    }

    pub fn port(&self) -> u16 {
        self.name.port
    }
}

#[derive(Clone, Copy, Debug, PartialEq, Eq)]
pub struct Settings {
    pub on: bool,
    pub limit: u32,
    pub room: u32,
    pub hold: u32,
    pub mss: u32,
    pub codings: Codings,
    /// From so many pending ones up an address gets no early opening.
    pub share: u32,
}

impl Settings {
    const FRESH: Settings = Settings {
        on: false,
        limit: 0,
        room: 0,
        hold: 0,
        mss: 536,
        codings: Codings::New,
        share: WHOLE_SHARE,
    };

    fn in_range(&self) -> bool {
        self.limit <= 64
            && self.room <= 1460
            && self.hold <= 65_535
            && (536..=1460).contains(&self.mss)
            && (1..=WHOLE_SHARE).contains(&self.share)
    }
}

/// A listener that may never have been started.
pub struct Listener {
    front: Option<Front>,
}

/// A started listener.
pub struct Front {
    own: [u8; 16],
    family: usize,
    port: u16,
    settings: Settings,
    present: Schedule,
    previous: Option<Schedule>,
    clock: u64,
    slots: [Slot; SLOTS],
}

/// One look through the table, at the time of a call.
struct Survey {
    named: Option<usize>,
    free: Option<usize>,
    pending: u32,
    /// Those of them from the named source address, whatever their port.
    from_source: u32,
}

impl Listener {
    pub fn never_started() -> Listener {
        Listener { front: None }
    }

    pub fn start(own: &[u8], port: u16, key: &[u8]) -> Result<Listener, Refusal> {
        if own.len() != 4 && own.len() != 16 {
            return Err(Refusal::Address);
        }
        let key = as_key(key)?;
        Ok(Listener {
            front: Some(Front {
                own: block(own),
                family: own.len(),
                port,
                settings: Settings::FRESH,
                present: Schedule::expand(key),
                previous: None,
                clock: 0,
                slots: [Slot::FREE; SLOTS],
            }),
        })
    }

    /// The started listener, once the time of a call is found good.
    fn at(&mut self, time: u64) -> Result<&mut Front, Refusal> {
        let front = self.front.as_mut().ok_or(Refusal::NeverStarted)?;
        wire::check_time(front.clock, time)?;
        Ok(front)
    }

    pub fn settings(&mut self, time: u64, settings: Settings) -> Result<(), Refusal> {
        let front = self.at(time)?;
        if !settings.in_range() {
            return Err(Refusal::Range);
        }
        front.settings = settings;
        front.clock = time;
        Ok(())
    }

    pub fn key(&mut self, time: u64, key: &[u8]) -> Result<(), Refusal> {
        let front = self.at(time)?;
        let present = Schedule::expand(as_key(key)?);
        front.previous = Some(std::mem::replace(&mut front.present, present));
        front.clock = time;
        Ok(())
    }

    /// Takes a segment of any kind; `ours` is the initial number for a new connection.
    pub fn segment(
        &mut self,
        time: u64,
        source: &[u8],
        ours: u32,
        segment: &[u8],
        out: &mut [u8],
    ) -> Result<Reply, Refusal> {
        let front = self.at(time)?;
        front.check_family(source)?;
        check_output(out)?;
        let segment = Segment::parse(segment).ok_or(Refusal::Malformed)?;
        if !segment.checksum_holds(source, front.own()) {
            return Err(Refusal::Checksum);
        }
        if segment.destination_port() != front.port {
            return Err(Refusal::Port);
        }
        let name = Name { block: u128::from_be_bytes(block(source)), port: segment.source_port() };
        let flags = segment.flags();
        let reply = if flags & (SYN | ACK | RST | FIN) == SYN {
            front.opening(time, name, ours, &segment, out)?
        } else if flags & (RST | SYN) == RST {
            front.reset(time, name, &segment)?
        } else if flags & (ACK | SYN | RST) == ACK {
            front.completion(time, name, &segment)?
        } else {
            return Err(Refusal::Flags);
        };
        front.clock = time;
        Ok(reply)
    }

    pub fn abandon(&mut self, time: u64, source: &[u8], port: u16) -> Result<(), Refusal> {
        let front = self.at(time)?;
        let slot = front.by_name(time, source, port)?;
        if slot.expected().is_none() {
            return Err(Refusal::NoSuchConnection);
        }
        slot.status = Status::Free;
        front.clock = time;
        Ok(())
    }

    pub fn close(&mut self, time: u64, source: &[u8], port: u16) -> Result<(), Refusal> {
        let front = self.at(time)?;
        let slot = front.by_name(time, source, port)?;
        if slot.status != Status::Open {
            return Err(Refusal::NoSuchConnection);
        }
        slot.status = Status::Free;
        front.clock = time;
        Ok(())
    }

    /// Writes the short answer again and says how long it is.
    pub fn resend(&mut self, time: u64, source: &[u8], port: u16, out: &mut [u8]) -> Result<usize, Refusal> {
        let front = self.at(time)?;
        front.check_family(source)?;
        check_output(out)?;
        let slot = *front.by_name(time, source, port)?;
        let expected = slot.expected().ok_or(Refusal::NoSuchConnection)?;
        let written = front.answer(slot.name, slot.iss, expected, None, out);
        front.clock = time;
        Ok(written)
    }

    /// Early connections and resets still held, as of the clock.
    pub fn pending(&self) -> u32 {
        let Some(front) = &self.front else { return 0 };
        front.slots.iter().filter(|slot| slot.is_pending(front.clock)).count() as u32
    }

    /// The inner state, for a script maker that wants its numbers right.
    pub fn front(&self) -> Option<&Front> {
        self.front.as_ref()
    }
}

impl Front {
    fn check_family(&self, source: &[u8]) -> Result<(), Refusal> {
        if source.len() != self.family {
            return Err(Refusal::Address);
        }
        Ok(())
    }

    fn survey(&self, name: Name, time: u64) -> Survey {
        let mut survey = Survey { named: None, free: None, pending: 0, from_source: 0 };
        for (place, slot) in self.slots.iter().enumerate() {
            if slot.is_free(time) {
                survey.free = survey.free.or(Some(place));
                continue;
            }
            if slot.name == name {
                survey.named = Some(place);
            }
            if slot.is_pending(time) {
                survey.pending += 1;
                survey.from_source += u32::from(slot.name.block == name.block);
            }
        }
        survey
    }

    fn find(&self, name: Name, time: u64) -> Option<usize> {
        self.slots.iter().position(|slot| slot.name == name && !slot.is_free(time))
    }

    fn by_name(&mut self, time: u64, source: &[u8], port: u16) -> Result<&mut Slot, Refusal> {
        self.check_family(source)?;
        let name = Name { block: u128::from_be_bytes(block(source)), port };
        let place = self.find(name, time).ok_or(Refusal::NoSuchConnection)?;
        Ok(&mut self.slots[place])
    }

    fn opening(
        &mut self,
        time: u64,
        name: Name,
        ours: u32,
        segment: &Segment,
        out: &mut [u8],
    ) -> Result<Reply, Refusal> {
        let survey = self.survey(name, time);
        if let Some(place) = survey.named {
            return self.repeat(self.slots[place], segment, out);
        }
        let place = survey.free.ok_or(Refusal::TableFull)?;

        let irs = segment.sequence();
        let options = self.read_options(segment);
        // One address past its share is served like all when the limit is reached: plainly, and
        // without a cookie.
        let allowed = self.settings.on
            && survey.pending < self.settings.limit
            && survey.from_source < self.settings.share;
        let mut early = false;
        let mut fresh = None;
        if let Some(option) = options.fast_open.filter(|_| allowed) {
            let present = cookie_for(&self.present, name.block);
            let right_now = option.cookie == present;
            early = right_now
                || self.previous.as_ref().is_some_and(|key| {
                    option.cookie.len() == COOKIE && option.cookie == cookie_for(key, name.block)
                });
            fresh = (!right_now).then_some((option.coding, present));
        }

        let accepted = if early { segment.payload().len().min(self.settings.room as usize) } else { 0 };
        let (status, verdict) = if early {
            (Status::Early { accepted: accepted as u32 }, Verdict::Early)
        } else {
            (Status::Plain, Verdict::Plain)
        };
        let slot = Slot { name, irs, iss: ours, status };
        self.slots[place] = slot;
        let expected = irs.wrapping_add(1).wrapping_add(accepted as u32);
        let written = self.answer(name, ours, expected, fresh, out);
        Ok(Reply { accepted, written, reading: options.reading, ..Reply::bare(Kind::Opening(verdict)) })
    }

    /// An opening for a name that is in the table.
    fn repeat(&self, slot: Slot, segment: &Segment, out: &mut [u8]) -> Result<Reply, Refusal> {
        let same = slot.irs == segment.sequence();
        let expected = slot.expected().filter(|_| same).ok_or(Refusal::NotARepeat)?;
        let written = self.answer(slot.name, slot.iss, expected, None, out);
        let reading = self.read_options(segment).reading;
        Ok(Reply { written, reading, ..Reply::bare(Kind::Opening(Verdict::Repeat)) })
    }

    /// An opening's options, under the setting now in force.
    fn read_options<'a>(&self, segment: &Segment<'a>) -> Options<'a> {
        wire::read_options(segment.options(), self.settings.codings)
    }

    fn completion(&mut self, time: u64, name: Name, segment: &Segment) -> Result<Reply, Refusal> {
        let (slot, expected) = self.unfinished(time, name)?;
        if segment.sequence().wrapping_sub(expected) >= RECEIVE_SPAN
            || segment.acknowledgement() != slot.iss.wrapping_add(1)
        {
            return Err(Refusal::Number);
        }
        slot.status = Status::Open;
        Ok(Reply::bare(Kind::Completion))
    }

    fn reset(&mut self, time: u64, name: Name, segment: &Segment) -> Result<Reply, Refusal> {
        let until = time + u64::from(self.settings.hold);
        let (slot, expected) = self.unfinished(time, name)?;
        if segment.sequence() != expected {
            return Err(Refusal::Number);
        }
        // An early one goes on counting against the limit for a while, so that resets
        // can't be used to get round it.
        slot.status = if slot.status == Status::Plain { Status::Free } else { Status::Held { until } };
        Ok(Reply::bare(Kind::Reset))
    }

    /// The plain or early slot of a name, with the sequence number expected on it.
    fn unfinished(&mut self, time: u64, name: Name) -> Result<(&mut Slot, u32), Refusal> {
        let place = self.find(name, time).ok_or(Refusal::NoSuchConnection)?;
        let slot = &mut self.slots[place];
        let expected = slot.expected().ok_or(Refusal::NoSuchConnection)?;
        Ok((slot, expected))
    }

    /// Writes a SYN-ACK, with a cookie in its coding if one is given, and says how long it is.
    fn answer(
        &self,
        name: Name,
        iss: u32,
        acknowledgement: u32,
        fresh: Option<(Coding, [u8; COOKIE])>,
        out: &mut [u8],
    ) -> usize {
        let written = if fresh.is_some() { COOKIE_ANSWER } else { SHORT_ANSWER };
        let segment = &mut out[..written];
        segment[20..24].copy_from_slice(&wire::mss_option(self.settings.mss as u16));
        if let Some((coding, cookie)) = fresh {
            let option = coding.write(&cookie, &mut segment[24..]);
            segment[24 + option..].fill(wire::NO_OPERATION);
        }
        let header = Header {
            source_port: self.port,
            destination_port: name.port,
            sequence: iss,
            acknowledgement,
            flags: SYN | ACK,
        };
        let peer = name.block.to_be_bytes();
        wire::finish(segment, &header, written - wire::HEADER, self.own(), &peer[..self.family]);
        written
    }

    /// Our address.
    pub fn own(&self) -> &[u8] {
        &self.own[..self.family]
    }

    pub fn clock(&self) -> u64 {
        self.clock
    }

    pub fn slots(&self) -> &[Slot] {
        &self.slots
    }

    pub fn current_settings(&self) -> Settings {
        self.settings
    }
}

/// The bytes of a segment that a reply handed over: none where the segment is unsound or
/// has less payload than the reply says.
pub fn accepted_part(segment: &[u8], accepted: usize) -> &[u8] {
    Segment::parse(segment).and_then(|s| s.payload().get(..accepted)).unwrap_or(&[])
}

/// The cookie of a source address.
pub fn cookie(key: &[u8; 16], address: &[u8]) -> [u8; COOKIE] {
    cookie_for(&Schedule::expand(key), u128::from_be_bytes(block(address)))
}

fn cookie_for(key: &Schedule, block: u128) -> [u8; COOKIE] {
    let [a, b, c, d, e, f, g, h, ..] = key.encrypt(&block.to_be_bytes());
    [a, b, c, d, e, f, g, h]
}

fn as_key(key: &[u8]) -> Result<&[u8; 16], Refusal> {
    key.try_into().map_err(|_| Refusal::Range)
}

fn check_output(out: &[u8]) -> Result<(), Refusal> {
    if out.len() < LEAST_OUTPUT {
        return Err(Refusal::Output);
    }
    Ok(())
}

fn block(address: &[u8]) -> [u8; 16] {
    let mut block = [0; 16];
    block[..address.len()].copy_from_slice(address);
    block
}
