//! Scripts for the client's memory.

use super::line::Line;
use super::segment::{
    area_with, counted, experiment_area, noise, other_experiment, some_coding, telling_area, wild_area, Plan,
    Sum,
};
use super::{Rng, Script};
use crate::client::BAN_MS;
use crate::script::ClientSession;
use crate::wire::{self, Coding, Codings, Header, ACK, FIN, LAST_TIME, RST, SYN};

pub fn generate(seed: u64, calls: usize) -> Vec<u8> {
    let mut maker = Maker::new(seed);
    let mut turn = maker.script.rng.index(THEMES.len());
    while maker.script.calls < calls {
        maker.run(&THEMES[turn % THEMES.len()], calls);
        turn += 1;
    }
    maker.script.finish()
}

/// What one memory's life is mostly about.
struct Theme {
    calls: usize,
    servers: usize,
    ports: usize,
    /// Weights: open, answer, failed, noise, crowd, rooms, unacknowledged.
    actions: [u64; 7],
    /// Percent of answers that acknowledge none of the data sent.
    ignored: u64,
    damage: u64,
    step: u64,
    /// Percent of times about the end of a ban.
    ban_ends: u64,
    near_last_time: bool,
}

#[rustfmt::skip]
const THEMES: [Theme; 6] = [
    // few servers, everything
    Theme { calls: 250, servers: 4, ports: 2, actions: [40, 50, 3, 3, 0, 2, 8], ignored: 8, damage: 24, step: 50_000, ban_ends: 10, near_last_time: false },
    // more servers than are remembered
    Theme { calls: 420, servers: 36, ports: 1, actions: [40, 56, 1, 1, 0, 2, 8], ignored: 1, damage: 14, step: 1000, ban_ends: 2, near_last_time: false },
    // more bans than are remembered, often in the same millisecond
    Theme { calls: 320, servers: 9, ports: 5, actions: [120, 80, 60, 3, 9, 4, 25], ignored: 60, damage: 14, step: 1, ban_ends: 0, near_last_time: false },
    // bans that end
    Theme { calls: 260, servers: 5, ports: 3, actions: [104, 52, 40, 2, 1, 3, 36], ignored: 25, damage: 17, step: 90_000, ban_ends: 35, near_last_time: false },
    // hostile
    Theme { calls: 220, servers: 3, ports: 2, actions: [22, 55, 5, 16, 0, 1, 5], ignored: 10, damage: 54, step: 10_000, ban_ends: 5, near_last_time: false },
    // the end of time
    Theme { calls: 120, servers: 5, ports: 2, actions: [40, 40, 15, 2, 0, 2, 8], ignored: 20, damage: 20, step: 90_000, ban_ends: 10, near_last_time: true },
];

/// How many option bytes an opening has with a cookie of this length.
fn option_bytes(cookie: usize) -> usize {
    (4 + 2 + cookie).next_multiple_of(4)
}

/// A length at the room, one below or one above, but not 0; any short one where the options
/// don't fit.
fn about(rng: &mut Rng, room: i64) -> u64 {
    if room < 0 {
        return rng.within(1, 40);
    }
    (room + rng.pick(&[-1, 0, 0, 1, 1])).max(1) as u64
}

/// One sort of answer by its Fast Open options: with this cookie, without one, or with one
/// that counts only if what stands before it doesn't.
fn answer_sort(rng: &mut Rng, cookie: &[u8], codings: Codings) -> Vec<Vec<u8>> {
    let length = rng.pick(&[1, 2, 3, 5, 7, 9, 15, 17, 18]);
    let uncounted = rng.bytes(length);
    let older = Coding::Older.option(cookie);
    let [request, cookie, skipped] =
        [&[], cookie, &uncounted].map(|cookie| some_coding(rng, codings).option(cookie));
    let kind = rng.pick(&[wire::FAST_OPEN, wire::EXPERIMENT]);
    let end = rng.pick(&[vec![wire::END_OF_LIST], vec![kind, 0], vec![kind, 255]]);
    match rng.below(21) {
        0..=4 => vec![cookie],
        5 => vec![cookie, request],
        6..=8 => vec![skipped, cookie],
        9 | 10 => vec![request, cookie],
        11 => vec![end, cookie],
        12 | 13 => vec![request],
        14 => vec![skipped],
        15 => vec![wire::mss_option(1460).to_vec()],
        16 => vec![other_experiment(rng), cookie],
        17 => vec![other_experiment(rng)],
        18 | 19 => vec![older],
        _ => Vec::new(),
    }
}

struct Maker {
    script: Script<ClientSession>,
    family: usize,
    own: Vec<u8>,
    servers: Vec<Vec<u8>>,
    first_port: u16,
}

impl Maker {
    fn new(seed: u64) -> Maker {
        Maker {
            script: Script::new(seed, ClientSession::new()),
            family: 4,
            own: vec![192, 0, 2, 1],
            servers: Vec::new(),
            first_port: 443,
        }
    }

    fn run(&mut self, theme: &Theme, most: usize) {
        let fresh = self.script.calls == 0;
        let rng = &mut self.script.rng;
        self.family = rng.pick(&[4, 16]);
        self.own = rng.bytes(self.family);
        self.servers = (0..theme.servers).map(|_| rng.bytes(self.family)).collect();
        // Halves swapped: the same pseudo-header sum for another name.
        let mut swapped = self.servers[0].clone();
        swapped.rotate_left(2);
        self.servers.push(swapped);
        let mut next = self.servers[0].clone();
        next[self.family - 1] ^= 1;
        self.servers.push(next);
        self.first_port = rng.pick(&[443, 0, 65_530]);
        if fresh || rng.percent(75) {
            if !fresh || rng.percent(50) {
                let family = rng.pick(&[0, 1, 3, 5, 6, 15, 17, 32, 260, 272, (1 << 32) + 4, u64::MAX]);
                self.script.call(&Line::new("start").u64(family));
            }
            for _ in 0..self.script.rng.within(4, 8) {
                self.act(theme);
            }
        }
        self.script.call(&Line::new("start").u64(self.family as u64));
        if theme.near_last_time {
            let before = self.script.rng.pick(&[0, 1, 1000, BAN_MS - 1, BAN_MS, BAN_MS + 1]);
            let server = self.server();
            self.script.call(&Line::new("failed").u64(LAST_TIME - before).bytes(&server).u16(1));
        }
        let end = self.script.calls + theme.calls;
        while self.script.calls < end.min(most) {
            self.act(theme);
        }
    }

    fn act(&mut self, theme: &Theme) {
        let before = self.clock();
        self.act_once(theme);
        let after = self.clock();
        if after > before && self.script.rng.percent(4) {
            // the call's time must have become the clock
            let server = self.server();
            self.script.call(&Line::new("failed").u64(after - 1).bytes(&server).u16(9));
        }
    }

    fn act_once(&mut self, theme: &Theme) {
        match self.script.rng.weighted(&theme.actions) {
            0 => self.open(theme),
            1 => self.answer(theme),
            2 => self.failed(theme),
            3 => self.noise(theme),
            4 => self.crowd(theme),
            5 => self.rooms(),
            _ => self.unacknowledged(theme),
        }
    }

    fn clock(&self) -> u64 {
        self.script.session.client.memory().map_or(0, |memory| memory.clock())
    }

    fn time(&mut self, theme: &Theme) -> u64 {
        let clock = self.clock();
        let memory = self.script.session.client.memory();
        let ends: Vec<u64> = memory
            .map(|memory| memory.bans().map(|ban| ban.until).filter(|&end| end > clock).collect())
            .unwrap_or_default();
        let rng = &mut self.script.rng;
        let time = if !ends.is_empty() && rng.percent(theme.ban_ends) {
            // mostly the first end, so that the others stay to be met
            let first = ends.iter().min().copied().unwrap_or(clock);
            let end = if rng.percent(80) { first } else { rng.pick(&ends) };
            end + rng.below(3) - 1
        } else if rng.percent(50) {
            clock
        } else {
            clock + rng.below(theme.step + 1)
        };
        if theme.near_last_time && rng.below(30) == 0 {
            return LAST_TIME;
        }
        time.clamp(clock, LAST_TIME)
    }

    fn bad_time(&mut self) -> u64 {
        let clock = self.clock();
        self.script.rng.bad_time(clock)
    }

    fn bad_address(&mut self) -> Vec<u8> {
        let mut bad = self.server();
        let rng = &mut self.script.rng;
        match rng.below(5) {
            0 | 1 => bad.resize(20 - self.family, 0),
            2 | 3 => bad.resize(rng.pick(&[0, 1, 3, 5, 8, 15, 17, 32]), 0),
            _ => {}
        }
        bad
    }

    /// A server, more often one about to be forgotten or just forgotten.
    fn server(&mut self) -> Vec<u8> {
        let memory = self.script.session.client.memory();
        let known: Vec<Vec<u8>> =
            memory.map(|m| m.servers().map(<[u8]>::to_vec).collect()).unwrap_or_default();
        if known.len() >= 31 {
            match self.script.rng.below(10) {
                0..=2 => return self.script.rng.pick(&known[..3]),
                3 => {
                    let unknown: Vec<_> =
                        self.servers.iter().filter(|s| !known.contains(s)).cloned().collect();
                    if !unknown.is_empty() {
                        return self.script.rng.pick(&unknown);
                    }
                }
                _ => {}
            }
        }
        self.script.rng.pick(&self.servers)
    }

    /// A server to open to, more often one that is banned now.
    fn target(&mut self, theme: &Theme) -> (Vec<u8>, u16) {
        let clock = self.clock();
        let memory = self.script.session.client.memory();
        let banned: Vec<_> = memory
            .map(|m| m.bans().filter(|b| b.until > clock).map(|b| (b.address.clone(), b.port)).collect())
            .unwrap_or_default();
        let port = self.first_port.wrapping_add(self.script.rng.index(theme.ports) as u16);
        if !banned.is_empty() && self.script.rng.percent(25) {
            let (address, banned_port) = self.script.rng.pick(&banned);
            // the very name, or its address with another port
            return (address, if self.script.rng.percent(75) { banned_port } else { port });
        }
        (self.server(), port)
    }

    /// The room for data in an opening with a cookie; below zero where the options don't fit.
    fn room(&self, server: &[u8]) -> Option<i64> {
        let (cookie, size) = self.script.session.client.memory()?.known(server);
        (!cookie.is_empty()).then(|| size as i64 - option_bytes(cookie.len()) as i64)
    }

    fn open(&mut self, theme: &Theme) {
        let (mut server, port) = self.target(theme);
        let room = self.room(&server);
        let mut own = self.own.clone();
        let mut time = self.time(theme);
        let rng = &mut self.script.rng;
        let own_port = rng.next() as u16;
        let ours = rng.sequence();
        let mut mss: u32 = rng.pick(&[1460, 536, 537, 1459, 1220]);
        let mut out = rng.pick(&[1504, 1504, 1504, 1505, 2048]);
        let near = room.map(|room| about(rng, room));
        let length = match (rng.below(30), near) {
            (0 | 1, _) => rng.pick(&[1439, 1440, 1441, 1441, 1459, 1460, 1461, 1600]),
            (2 | 3, _) => rng.pick(&[535, 536, 537, 1219, 1220, 1221]),
            (4..=7, Some(near)) => near,
            (8..=10, _) => 0,
            // more often where it is short
            (11..=19, Some(near)) if near <= 40 => near,
            _ => rng.within(1, 40),
        };
        let data = rng.bytes(length as usize);
        if rng.percent(theme.damage) {
            for _ in 0..self.script.rng.pick(&[1, 1, 2, 3]) {
                match self.script.rng.weighted(&[2, 2, 2, 5, 4]) {
                    0 => time = self.bad_time(),
                    1 => server = self.bad_address(),
                    2 => own = self.bad_address(),
                    3 => out = self.script.rng.pick(&[0, 36, 1503, 1503]),
                    _ => mss = self.script.rng.pick(&[0, 535, 1461, 65_536 + 1000, u32::MAX]),
                }
            }
        }
        let line = Line::new("open")
            .u64(time)
            .bytes(&own)
            .u16(own_port)
            .bytes(&server)
            .u16(port)
            .u32(ours)
            .u32(mss)
            .out(out)
            .bytes(&data);
        self.script.call(&line);
    }

    /// What a server's answer carries: often a cookie, a size, or both.
    fn options(&mut self, codings: Codings) -> Vec<u8> {
        let rng = &mut self.script.rng;
        let length = rng.pick(&[4, 6, 8, 8, 8, 10, 12, 14, 16]);
        let cookie = rng.bytes(length);
        if rng.percent(12) {
            return wild_area(rng, &cookie);
        }
        if rng.percent(7) {
            return experiment_area(rng, &cookie);
        }
        if rng.percent(12) {
            return telling_area(rng, &cookie, codings);
        }
        let [request, cookie] = [&[], &cookie[..]].map(|cookie| some_coding(rng, codings).option(cookie));
        let mut wanted = Vec::new();
        if rng.percent(45) {
            let any = rng.next() as u16;
            let mss = if rng.percent(40) {
                // about the option bytes of an opening
                rng.pick(&[0, 1, 11, 12, 13, 15, 16, 17, 19, 20, 21, 23, 24, 25, 30, 40])
            } else {
                rng.pick(&[1460, 1460, 536, 1440, 1441, 1461, 65_535, any])
            };
            wanted.push(wire::mss_option(mss).to_vec());
        }
        if rng.percent(65) {
            wanted.push(cookie);
        } else if rng.percent(15) {
            // nothing to store
            return area_with(rng, &[request]);
        } else if rng.percent(25) {
            // an empty one stands first and, if it counts, is the one used
            wanted.push(request);
            wanted.push(cookie);
        }
        if rng.percent(15) {
            wanted.reverse();
        }
        area_with(rng, &wanted)
    }

    fn answer(&mut self, theme: &Theme) {
        let (server, port) = self.target(theme);
        let codings = self.codings();
        let options = self.options(codings);
        let mut time = self.time(theme);
        let (mut given_own, mut given_server) = (self.own.clone(), server.clone());
        let rng = &mut self.script.rng;
        let own_port = rng.next() as u16;
        let ours = rng.sequence();
        let mut sent: u32 = rng.pick(&[0, 0, 1, 2, 30, 536, 1459, 1460, 1460]);
        let acknowledged = match rng.below(20) {
            _ if rng.percent(theme.ignored) => 0,
            0..=9 => sent,
            10..=15 => rng.within(0, sent.into()) as u32,
            16 => sent.wrapping_add(1),
            17 => u32::MAX,
            18 => sent.saturating_sub(1),
            _ => rng.pick(&[u32::MAX - 1, 1 << 31, 1461, 65_536, 0]),
        };
        let mut plan = Plan {
            source: server,
            destination: self.own.clone(),
            source_port: port,
            destination_port: own_port,
            sequence: rng.sequence(),
            acknowledgement: ours.wrapping_add(1).wrapping_add(acknowledged),
            flags: SYN | ACK,
            window: 65_535,
            urgent: 0,
            options,
            payload: if rng.percent(10) { rng.payload() } else { Vec::new() },
            reserved: 0,
            offset: None,
            length: None,
            sum: Sum::Right,
        };
        plan.decorate(rng);
        let mut given_port = port;
        let mut given_own_port = own_port;
        if rng.percent(theme.damage) {
            for _ in 0..self.script.rng.pick(&[1, 1, 1, 2, 2, 3, 4]) {
                match self.script.rng.weighted(&[8, 6, 6, 6, 6, 12, 20, 50]) {
                    0 => time = self.bad_time(),
                    1 => given_own = self.bad_address(),
                    2 => given_server = self.bad_address(),
                    3 => given_port ^= 1,
                    4 => given_own_port ^= 0x100,
                    5 => sent = self.script.rng.pick(&[1461, 1461, 1462, 65_536, u32::MAX]),
                    6 => {
                        plan.flags =
                            self.script.rng.pick(&[SYN, ACK, SYN | ACK | RST, SYN | ACK | FIN, 0, RST | ACK])
                    }
                    _ => plan.damage(&mut self.script.rng),
                }
            }
        }
        let line = Line::new("answer")
            .u64(time)
            .bytes(&given_own)
            .u16(given_own_port)
            .bytes(&given_server)
            .u16(given_port)
            .u32(ours)
            .u32(sent)
            .bytes(&plan.encode())
            .codings(codings);
        self.script.call(&line);
    }

    fn failed(&mut self, theme: &Theme) {
        let (mut server, port) = self.target(theme);
        let mut time = self.time(theme);
        if self.script.rng.percent(theme.damage) {
            match self.script.rng.below(3) {
                0 => time = self.bad_time(),
                1 => server = self.bad_address(),
                _ => {
                    time = self.bad_time();
                    server = self.bad_address();
                }
            }
        }
        self.script.call(&Line::new("failed").u64(time).bytes(&server).u16(port));
    }

    /// More bans than there are places, most of them ending together; then a look at who
    /// is left. Names come in any order, so that places and ends don't go together.
    fn crowd(&mut self, theme: &Theme) {
        let mut names: Vec<(Vec<u8>, u16)> = Vec::new();
        for port in 0..theme.ports.max(4) as u16 {
            names.extend(self.servers.iter().map(|s| (s.clone(), self.first_port.wrapping_add(port))));
        }
        for last in (1..names.len()).rev() {
            names.swap(last, self.script.rng.index(last + 1));
        }
        let mut time = self.clock();
        if self.script.rng.percent(50) {
            // when part of the last crowd has ended
            let memory = self.script.session.client.memory();
            let ends: Vec<u64> = memory.map(|m| m.bans().map(|b| b.until).collect()).unwrap_or_default();
            if !ends.is_empty() {
                time = self.script.rng.pick(&ends).max(time);
            }
        }
        let many = self.script.rng.within(33, 37) as usize;
        for (address, port) in names.iter().take(many) {
            time = (time + self.script.rng.pick(&[0, 0, 0, 0, 0, 0, 1])).min(LAST_TIME);
            self.script.call(&Line::new("failed").u64(time).bytes(address).u16(*port));
        }
        for (address, port) in names.iter().take(many).step_by(2) {
            self.simple_open(time, address, *port, &[1]);
        }
    }

    /// An opening in which only the server and the data matter.
    fn simple_open(&mut self, time: u64, server: &[u8], port: u16, data: &[u8]) {
        let line = Line::new("open")
            .u64(time)
            .bytes(&self.own)
            .u16(1)
            .bytes(server)
            .u16(port)
            .u32(1)
            .u32(536)
            .out(1504)
            .bytes(data);
        self.script.call(&line);
    }

    /// An answer that acknowledges no data, in which only the server, the bytes sent and the
    /// options matter.
    fn simple_answer(
        &mut self,
        time: u64,
        (server, port): (&[u8], u16),
        sent: u32,
        options: &[u8],
        codings: Codings,
    ) {
        let rng = &mut self.script.rng;
        let ours = rng.sequence();
        let header = Header {
            source_port: port,
            destination_port: 1,
            sequence: rng.sequence(),
            acknowledgement: ours.wrapping_add(1),
            flags: SYN | ACK,
        };
        let mut segment = [&[0; wire::HEADER][..], options].concat();
        wire::finish(&mut segment, &header, options.len(), server, &self.own);
        let line = Line::new("answer")
            .u64(time)
            .bytes(&self.own)
            .u16(1)
            .bytes(server)
            .u16(port)
            .u32(ours)
            .u32(sent)
            .bytes(&segment)
            .codings(codings);
        self.script.call(&line);
    }

    /// Cookies of every length, each with a size about its option bytes; after each an
    /// opening with data about the room.
    fn rooms(&mut self) {
        let (server, time) = (self.server(), self.clock());
        // past the ports that get banned
        let port = self.first_port.wrapping_add(8);
        for length in [4, 6, 8, 10, 12, 14, 16] {
            let codings = self.codings();
            let rng = &mut self.script.rng;
            let room = rng.pick(&[-8, -1, 0, 0, 1, 1, 2, 9]);
            let mss = option_bytes(length) as i64 + room;
            let mut options = wire::mss_option(mss as u16).to_vec();
            options.extend(counted(rng, codings).option(&rng.bytes(length)));
            options.resize(options.len().next_multiple_of(4), wire::NO_OPERATION);
            self.simple_answer(time, (&server, port), 0, &options, codings);
            let rng = &mut self.script.rng;
            let offered = about(rng, room);
            let data = rng.bytes(offered as usize);
            self.simple_open(time, &server, port, &data);
        }
    }

    /// An answer that acknowledges none of the data sent, then openings that tell whether it
    /// set a ban: at once and, where bans end, about the end of the one there is or would be.
    fn unacknowledged(&mut self, theme: &Theme) {
        let (server, port) = self.target(theme);
        let time = self.time(theme);
        let (cookie, codings) = (self.cookie(&server), self.codings());
        let rng = &mut self.script.rng;
        let wanted = answer_sort(rng, &cookie, codings);
        let options = area_with(rng, &wanted);
        let sent = rng.pick(&[1, 1, 2, 30, 536, 1460]);
        self.simple_answer(time, (&server, port), sent, &options, codings);
        self.simple_open(time, &server, port, &[1]);
        if self.script.rng.percent(theme.ban_ends) {
            let end = self.ban_end(&server, port).unwrap_or(time + BAN_MS);
            self.simple_open((end - 1).min(LAST_TIME), &server, port, &[2]);
            self.simple_open(end.min(LAST_TIME), &server, port, &[3]);
        }
    }

    /// The coding setting to be given with an answer.
    fn codings(&mut self) -> Codings {
        self.script.rng.pick(&[Codings::New, Codings::Both])
    }

    /// A cookie for an answer: any, or now and then the one that is stored.
    fn cookie(&mut self, server: &[u8]) -> Vec<u8> {
        let memory = self.script.session.client.memory();
        let stored = memory.map_or(Vec::new(), |memory| memory.known(server).0.to_vec());
        let rng = &mut self.script.rng;
        if !stored.is_empty() && rng.percent(20) {
            return stored;
        }
        let length = rng.pick(&[4, 6, 8, 10, 12, 14, 16]);
        rng.bytes(length)
    }

    /// When the live ban of this name ends.
    fn ban_end(&self, server: &[u8], port: u16) -> Option<u64> {
        let memory = self.script.session.client.memory()?;
        let mut bans = memory.bans().filter(|ban| ban.until > memory.clock());
        bans.find(|ban| ban.address == server && ban.port == port).map(|ban| ban.until)
    }

    fn noise(&mut self, theme: &Theme) {
        let time = self.time(theme);
        let (server, codings) = (self.server(), self.codings());
        let rng = &mut self.script.rng;
        let ours = rng.sequence();
        let sent = rng.below(1500) as u32;
        let bytes = noise(rng, &server, &self.own, 80);
        let line = Line::new("answer")
            .u64(time)
            .bytes(&self.own)
            .u16(80)
            .bytes(&server)
            .u16(self.first_port)
            .u32(ours)
            .u32(sent)
            .bytes(&bytes)
            .codings(codings);
        self.script.call(&line);
    }
}
