//! The client's memory: cookies and segment sizes by server, and servers to leave alone.

use crate::wire::{self, Coding, Codings, Header, Reading, Refusal, Segment, ACK, FIN, RST, SYN};

pub const PLACES: usize = 32;
pub const LEAST_OUTPUT: usize = 1504;
pub const BAN_MS: u64 = 600_000;
const MOST_SENT: u32 = 1460;

struct Server {
    address: Vec<u8>,
    cookie: Vec<u8>,
    mss: Option<u16>,
}

pub struct Ban {
    pub address: Vec<u8>,
    pub port: u16,
    pub until: u64,
}

/// A memory that may never have been started.
pub struct Client {
    memory: Option<Memory>,
}

pub struct Memory {
    family: usize,
    clock: u64,
    /// The least recently stored first.
    servers: Vec<Server>,
    bans: [Option<Ban>; PLACES],
}

/// The two ends of an attempt to connect, and our initial number.
pub struct Attempt<'a> {
    pub own: &'a [u8],
    pub own_port: u16,
    pub server: &'a [u8],
    pub server_port: u16,
    pub ours: u32,
}

#[derive(Clone, Copy, Debug, PartialEq, Eq)]
pub struct Opened {
    pub sent: usize,
    pub written: usize,
}

/// What an answer said.
#[derive(Clone, Copy, Debug, PartialEq, Eq)]
pub struct Learnt {
    /// How many of the bytes sent it acknowledges.
    pub acknowledged: u32,
    pub reading: Reading,
}

impl Client {
    pub fn never_started() -> Client {
        Client { memory: None }
    }

    pub fn start(family: u64) -> Result<Client, Refusal> {
        if family != 4 && family != 16 {
            return Err(Refusal::Address);
        }
        Ok(Client {
            memory: Some(Memory {
                family: family as usize,
                clock: 0,
                servers: Vec::with_capacity(PLACES),
                bans: [const { None }; PLACES],
            }),
        })
    }

    fn at(&mut self, time: u64) -> Result<&mut Memory, Refusal> {
        let memory = self.memory.as_mut().ok_or(Refusal::NeverStarted)?;
        wire::check_time(memory.clock, time)?;
        Ok(memory)
    }

    /// Writes the opening segment, with as much of `data` as may go with it.
    pub fn open(
        &mut self,
        time: u64,
        attempt: &Attempt,
        mss: u32,
        data: &[u8],
        out: &mut [u8],
    ) -> Result<Opened, Refusal> {
        let memory = self.at(time)?;
        memory.check_family(attempt.own)?;
        memory.check_family(attempt.server)?;
        if out.len() < LEAST_OUTPUT {
            return Err(Refusal::Output);
        }
        if !(536..=1460).contains(&mss) {
            return Err(Refusal::Range);
        }

        let mut options = wire::mss_option(mss as u16).to_vec();
        let mut sent: &[u8] = &[];
        if !memory.is_banned(attempt.server, attempt.server_port, time) {
            let (cookie, size) = memory.known(attempt.server);
            options.extend(Coding::New.option(cookie));
            options.resize(options.len().next_multiple_of(4), wire::NO_OPERATION);
            if !cookie.is_empty() {
                let room = size.saturating_sub(options.len());
                sent = &data[..data.len().min(room)];
            }
        }

        let data_at = wire::HEADER + options.len();
        let written = data_at + sent.len();
        out[wire::HEADER..data_at].copy_from_slice(&options);
        out[data_at..written].copy_from_slice(sent);
        let header = Header {
            source_port: attempt.own_port,
            destination_port: attempt.server_port,
            sequence: attempt.ours,
            acknowledgement: 0,
            flags: SYN,
        };
        wire::finish(&mut out[..written], &header, options.len(), attempt.own, attempt.server);
        memory.clock = time;
        Ok(Opened { sent: sent.len(), written })
    }

    /// Learns from the answer to an attempt, its options read under a setting of its own.
    pub fn answer(
        &mut self,
        time: u64,
        attempt: &Attempt,
        sent: u32,
        segment: &[u8],
        codings: Codings,
    ) -> Result<Learnt, Refusal> {
        let memory = self.at(time)?;
        memory.check_family(attempt.own)?;
        memory.check_family(attempt.server)?;
        let segment = Segment::parse(segment).ok_or(Refusal::Malformed)?;
        if !segment.checksum_holds(attempt.server, attempt.own) {
            return Err(Refusal::Checksum);
        }
        if segment.source_port() != attempt.server_port || segment.destination_port() != attempt.own_port {
            return Err(Refusal::Port);
        }
        if segment.flags() & (SYN | ACK | RST | FIN) != SYN | ACK {
            return Err(Refusal::Flags);
        }
        if sent > MOST_SENT {
            return Err(Refusal::Range);
        }
        let acknowledged = segment.acknowledgement().wrapping_sub(attempt.ours).wrapping_sub(1);
        if acknowledged > sent {
            return Err(Refusal::Number);
        }

        let options = wire::read_options(segment.options(), codings);
        let cookie = options.fast_open.map_or(&[][..], |option| option.cookie);
        memory.store(attempt.server, cookie, options.mss);
        // RFC 7413's negative response, unless it brings a cookie: then only ours was out of date.
        if sent > 0 && acknowledged == 0 && cookie.is_empty() {
            memory.ban(attempt.server, attempt.server_port, time);
        }
        memory.clock = time;
        Ok(Learnt { acknowledged, reading: options.reading })
    }

    /// A timeout or an ICMP error was reported for a server.
    pub fn failed(&mut self, time: u64, server: &[u8], port: u16) -> Result<(), Refusal> {
        let memory = self.at(time)?;
        memory.check_family(server)?;
        memory.ban(server, port, time);
        memory.clock = time;
        Ok(())
    }

    /// The inner state, for a script maker that wants its times right.
    pub fn memory(&self) -> Option<&Memory> {
        self.memory.as_ref()
    }
}

impl Memory {
    fn check_family(&self, address: &[u8]) -> Result<(), Refusal> {
        if address.len() != self.family {
            return Err(Refusal::Address);
        }
        Ok(())
    }

    /// The MSS seen, or the default, up to the cap: what options and data have together.
    fn size(&self, seen: Option<u16>) -> usize {
        let (default, cap) = if self.family == 4 { (536, 1460) } else { (1220, 1440) };
        usize::from(seen.unwrap_or(default)).min(cap)
    }

    fn is_banned(&self, address: &[u8], port: u16, time: u64) -> bool {
        self.live_ban(address, port, time).is_some()
    }

    fn live_ban(&self, address: &[u8], port: u16, time: u64) -> Option<usize> {
        self.bans.iter().position(|place| {
            place.as_ref().is_some_and(|ban| ban.until > time && ban.port == port && ban.address == address)
        })
    }

    fn ban(&mut self, address: &[u8], port: u16, time: u64) {
        // A place that isn't live sorts before every live one, whatever its end was;
        // min_by_key gives the lowest place among equals.
        let place = self.live_ban(address, port, time).unwrap_or_else(|| {
            (0..PLACES)
                .min_by_key(|&place| match &self.bans[place] {
                    Some(ban) if ban.until > time => ban.until,
                    _ => 0,
                })
                .unwrap_or(0)
        });
        self.bans[place] = Some(Ban { address: address.to_vec(), port, until: time + BAN_MS });
    }

    /// Keeps what an answer brought; an answer that brought nothing isn't a storing.
    fn store(&mut self, address: &[u8], cookie: &[u8], mss: Option<u16>) {
        if cookie.is_empty() && mss.is_none() {
            return;
        }
        let known = self.servers.iter().position(|server| server.address == address);
        let mut server = match known {
            Some(place) => self.servers.remove(place),
            None => Server { address: address.to_vec(), cookie: Vec::new(), mss: None },
        };
        if !cookie.is_empty() {
            server.cookie = cookie.to_vec();
        }
        server.mss = mss.or(server.mss);
        if self.servers.len() == PLACES {
            self.servers.remove(0);
        }
        self.servers.push(server);
    }

    pub fn clock(&self) -> u64 {
        self.clock
    }

    /// Server addresses, the least recently stored first.
    pub fn servers(&self) -> impl Iterator<Item = &[u8]> {
        self.servers.iter().map(|server| &server.address[..])
    }

    /// A server's cookie, empty for none, and what options and data of an opening to it have together.
    pub fn known(&self, address: &[u8]) -> (&[u8], usize) {
        match self.servers.iter().find(|server| server.address == address) {
            Some(server) => (&server.cookie, self.size(server.mss)),
            None => (&[], self.size(None)),
        }
    }

    pub fn bans(&self) -> impl Iterator<Item = &Ban> {
        self.bans.iter().flatten()
    }
}
