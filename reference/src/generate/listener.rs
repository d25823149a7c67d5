//! Scripts for the listener.

use super::line::Line;
use super::segment::{
    area_with, counted, experiment_area, noise, some_coding, telling_area, wild_area, Plan, Sum, CODINGS,
    NUDGES,
};
use super::{Rng, Script};
use crate::aes::Schedule;
use crate::listener::{cookie, Settings, Slot, Status, WHOLE_SHARE};
use crate::script::ListenerSession;
use crate::wire::{self, Codings, ACK, FIN, LAST_TIME, RST, SYN};

pub fn generate(seed: u64, calls: usize) -> Vec<u8> {
    let mut maker = Maker::new(seed);
    let mut themes: Vec<&Theme> = THEMES.iter().collect();
    themes.rotate_left(maker.script.rng.index(THEMES.len()));
    // the second, so that no long script is without it
    themes.insert(1, &MONDAY);
    let mut turn = 0;
    while maker.script.calls < calls {
        maker.run(themes[turn % themes.len()], calls);
        turn += 1;
    }
    maker.script.finish()
}

/// What one listener's life is mostly about.
pub struct Theme {
    pub calls: usize,
    pub addresses: usize,
    pub ports: u64,
    pub limits: &'static [u32],
    pub holds: &'static [u32],
    pub shares: &'static [u32],
    /// Percent of calls that are damaged.
    pub damage: u64,
    /// Weight of right cookies among openings; all else weighs 106.
    pub right: u64,
    /// Weights of the actions, in the order of `Maker::act_once`.
    pub actions: [u64; 16],
    /// The usual longest step in time, and a rare longer one.
    pub step: u64,
    pub leap: u64,
    pub near_last_time: bool,
    /// Begins with as many early connections as there are slots, or almost.
    pub brim: bool,
    /// Begins with one address that takes far more than its share.
    pub monday: bool,
}

#[rustfmt::skip]
//                     open again compl reset aband resend close settings key noise kinds twins hold turn tell share
const THEMES: [Theme; 7] = [
    // a bit of everything
    Theme {
        calls: 300, addresses: 5, ports: 12, limits: &[3, 8, 16, 64], holds: &[0, 100, 1000, 65_535], shares: FEW, damage: 18, right: 100,
        actions: [30, 12, 16, 10, 5, 6, 9, 3, 2, 3, 3, 2, 5, 1, 2, 1], step: 20, leap: 3000, near_last_time: false, brim: false, monday: false,
    },
    // a full table
    Theme {
        calls: 330, addresses: 6, ports: 60, limits: &[40, 63, 63, 64, 64], holds: &[50, 65_535], shares: &[64, 64, 64, 64, 63], damage: 10, right: 650,
        actions: [44, 12, 12, 8, 4, 8, 9, 1, 1, 1, 1, 2, 3, 1, 2, 1], step: 3, leap: 60, near_last_time: false, brim: true, monday: false,
    },
    // resets and their holds
    Theme {
        calls: 300, addresses: 3, ports: 8, limits: &[2, 3, 5, 10], holds: &[0, 1, 2, 10, 40], shares: FEW, damage: 12, right: 195,
        actions: [36, 9, 6, 24, 5, 4, 4, 5, 1, 1, 1, 1, 12, 1, 2, 1], step: 6, leap: 50, near_last_time: false, brim: false, monday: false,
    },
    // keys that turn
    Theme {
        calls: 260, addresses: 2, ports: 30, limits: &[20, 64], holds: &[0, 5], shares: FEW, damage: 12, right: 70,
        actions: [42, 4, 12, 8, 8, 3, 10, 2, 14, 1, 1, 1, 3, 3, 2, 1], step: 9, leap: 90, near_last_time: false, brim: false, monday: false,
    },
    // pending about the limit
    Theme {
        calls: 260, addresses: 3, ports: 10, limits: &[0, 1, 2, 3], holds: &[0, 30, 300], shares: FEW, damage: 12, right: 195,
        actions: [36, 8, 10, 12, 8, 4, 8, 9, 2, 1, 1, 2, 5, 1, 2, 1], step: 10, leap: 300, near_last_time: false, brim: false, monday: false,
    },
    // the end of time
    Theme {
        calls: 170, addresses: 3, ports: 9, limits: &[4, 64], holds: &[10, 1000, 65_535], shares: FEW, damage: 20, right: 160,
        actions: [34, 8, 10, 18, 4, 4, 6, 3, 2, 1, 1, 2, 5, 1, 2, 1], step: 500, leap: 20_000, near_last_time: true, brim: false, monday: false,
    },
    // hostile
    Theme {
        calls: 260, addresses: 4, ports: 6, limits: &[2, 8, 64], holds: &[0, 7, 700], shares: FEW, damage: 36, right: 100,
        actions: [24, 10, 12, 10, 5, 5, 6, 4, 3, 12, 12, 2, 4, 1, 2, 1], step: 8, leap: 500, near_last_time: false, brim: false, monday: false,
    },
];

/// One address and its share.
#[rustfmt::skip]
const MONDAY: Theme = Theme {
    calls: 130, addresses: 2, ports: 50, limits: &[64, 64, 20], holds: &[0, 5, 100], shares: &[1, 2, 3, 8, 8, 63, 64], damage: 8, right: 120,
    actions: [20, 6, 12, 8, 14, 3, 10, 3, 2, 0, 1, 3, 3, 1, 1, 5], step: 6, leap: 60, near_last_time: false, brim: false, monday: true,
};

/// Shares that seldom matter, so that all else is met as often as without them.
pub const FEW: &[u32] = &[64, 64, 64, 64, 64, 64, 64, 64, 64, 63, 5, 2];

/// Numbers just out of a share's range, and some that are in it if they are cut short.
const NO_SHARES: [u32; 9] = [0, 0, 65, 65, 66, 256 + 8, 65_536 + 8, u32::MAX, u32::MAX];

/// What an opening has for a cookie.
#[derive(Clone, Copy)]
pub enum Offer {
    Right,
    /// Right under the key before the present one, if there was one.
    Outdated,
    Wrong,
    Request,
}

pub struct Maker {
    pub(super) script: Script<ListenerSession>,
    pub own: Vec<u8>,
    pub port: u16,
    pub family: usize,
    addresses: Vec<Vec<u8>>,
    /// Every key this listener had, the present one last.
    keys: Vec<[u8; 16]>,
    first_port: u16,
    /// A time the next call is to have, if it isn't past.
    pub meeting: Option<u64>,
}

impl Maker {
    pub fn new(seed: u64) -> Maker {
        Maker {
            script: Script::new(seed, ListenerSession::new()),
            own: vec![192, 0, 2, 2],
            port: 443,
            family: 4,
            addresses: vec![vec![192, 0, 2, 1]],
            keys: vec![[7; 16]],
            first_port: 40_000,
            meeting: None,
        }
    }

    /// One listener from before its start to its last call.
    fn run(&mut self, theme: &Theme, most: usize) {
        self.set_scene(theme);
        let fresh = self.script.calls == 0;
        if fresh || self.script.rng.percent(75) {
            if !fresh || self.script.rng.percent(50) {
                self.refused_start();
            }
            for _ in 0..self.script.rng.within(3, 7) {
                self.act(theme);
            }
        }
        self.start();
        if theme.monday {
            self.monday(theme);
        } else if theme.brim || !self.script.rng.percent(10) {
            if theme.near_last_time {
                let before = self.script.rng.pick(&[0, 1, 100, 60_000, 66_000]);
                self.settings(theme, Some(LAST_TIME - before));
            } else {
                self.settings(theme, Some(0));
            }
        }
        if theme.brim {
            self.fill();
        }
        let end = self.script.calls + theme.calls;
        while self.script.calls < end.min(most) {
            self.act(theme);
        }
        if self.script.rng.percent(25) {
            // the clock's last place, from which no later call moves it
            for _ in 0..4 {
                self.settings(theme, Some(LAST_TIME));
                self.act(theme);
            }
        }
    }

    fn fill(&mut self) {
        let source = self.addresses[0].clone();
        let (time, codings) = (self.clock(), self.codings());
        for port in 0..self.script.rng.within(62, 65) as u16 {
            let mut plan = self.plan(&source, port);
            let coding = counted(&mut self.script.rng, codings);
            plan.options = coding.option(&cookie(&self.keys[0], &source));
            plan.options.resize(12, wire::NO_OPERATION);
            plan.sequence = self.script.rng.sequence();
            plan.payload = vec![port as u8];
            let line =
                Line::new("segment").u64(time).bytes(&source).u32(port.into()).out(36).bytes(&plan.encode());
            self.script.call(&line);
        }
    }

    /// One address asks for a cookie and comes back with it on forty ports, under a share of
    /// eight; then another address comes.
    fn monday(&mut self, theme: &Theme) {
        let rng = &mut self.script.rng;
        let settings = Settings {
            on: true,
            limit: 64,
            room: 1460,
            hold: rng.pick(theme.holds),
            mss: 1460,
            codings: rng.pick(&[Codings::New, Codings::Both]),
            share: 8,
        };
        self.set(0, &settings);
        let (source, other) = (self.addresses[0].clone(), self.addresses[1].clone());
        let request = self.newcomer(theme, &source, Offer::Request);
        self.undamaged(0, &request);
        for _ in 0..40 {
            let plan = self.newcomer(theme, &source, Offer::Right);
            self.undamaged(0, &plan);
        }
        let plan = self.newcomer(theme, &other, Offer::Right);
        self.undamaged(0, &plan);
    }

    pub fn set_scene(&mut self, theme: &Theme) {
        let rng = &mut self.script.rng;
        self.family = rng.pick(&[4, 4, 16]);
        self.own = rng.bytes(self.family);
        self.port = rng.pick(&[443, 0, 65_535, 80]);
        self.first_port = rng.pick(&[0, 1000, 40_000, 65_400]);
        self.keys = vec![rng.next().to_be_bytes().repeat(2).try_into().unwrap_or([0; 16])];
        self.addresses = (0..theme.addresses).map(|_| rng.bytes(self.family)).collect();
        // Halves swapped: the same pseudo-header sum for another name.
        let mut swapped = self.addresses[0].clone();
        swapped.rotate_left(2);
        self.addresses.push(swapped);
        // One bit away at the very end, and our own address.
        let mut next = self.addresses[0].clone();
        next[self.family - 1] ^= 1;
        self.addresses.push(next);
        self.addresses.push(self.own.clone());
    }

    pub fn start_line(&self) -> Line {
        Line::new("start").bytes(&self.own).u16(self.port).bytes(&self.keys[0])
    }

    pub fn start(&mut self) {
        let line = self.start_line();
        self.script.call(&line);
    }

    pub fn refused_start_line(&mut self) -> Line {
        let mut own = self.own.clone();
        let mut key = self.keys[0].to_vec();
        let rng = &mut self.script.rng;
        if rng.percent(50) {
            own.resize(rng.pick(&[0, 1, 3, 5, 8, 15, 17, 32]), 9);
        }
        if own.len() == self.family || rng.percent(30) {
            key.resize(rng.pick(&[0, 1, 15, 17, 24, 32]), 9);
        }
        Line::new("start").bytes(&own).u16(self.port).bytes(&key)
    }

    pub fn refused_start(&mut self) {
        let line = self.refused_start_line();
        self.script.call(&line);
    }

    pub fn act(&mut self, theme: &Theme) {
        let before = self.clock();
        self.act_once(theme);
        let after = self.clock();
        if after > before && self.script.rng.percent(6) {
            // the call's time must have become the clock
            let line = Line::new("key").u64(after - 1).bytes(&[7; 16]);
            self.script.call(&line);
        }
    }

    fn act_once(&mut self, theme: &Theme) {
        match self.script.rng.weighted(&theme.actions) {
            0 => self.open(theme),
            1 => self.open_again(theme),
            2 => self.complete(theme),
            3 => self.reset(theme),
            4 => self.by_name(theme, "abandon"),
            5 => self.by_name(theme, "resend"),
            6 => self.by_name(theme, "close"),
            7 => self.settings(theme, None),
            8 => self.key(theme),
            9 => self.noise(theme),
            10 => self.kinds(theme),
            11 => self.twins(theme),
            12 => self.hold(theme),
            13 => self.turn_codings(theme),
            14 => self.tell(theme),
            _ => self.share(theme),
        }
    }

    pub fn clock(&self) -> u64 {
        self.script.session.listener.front().map_or(0, |front| front.clock())
    }

    /// The coding setting in force.
    fn codings(&self) -> Codings {
        let front = self.script.session.listener.front();
        front.map_or(Codings::New, |front| front.current_settings().codings)
    }

    fn slots(&self, wanted: impl Fn(&Slot) -> bool) -> Vec<Slot> {
        let slots = self.script.session.listener.front().map_or(&[][..], |front| front.slots());
        slots.iter().filter(|slot| wanted(slot)).copied().collect()
    }

    pub fn some_slot(&mut self, wanted: impl Fn(&Slot) -> bool) -> Option<Slot> {
        let slots = self.slots(wanted);
        (!slots.is_empty()).then(|| self.script.rng.pick(&slots))
    }

    pub fn time(&mut self, theme: &Theme) -> u64 {
        let clock = self.clock();
        if let Some(meeting) = self.meeting.take() {
            return meeting.clamp(clock, LAST_TIME);
        }
        let ends: Vec<u64> = self
            .slots(|_| true)
            .iter()
            .filter_map(|slot| match slot.status {
                Status::Held { until } if until > clock => Some(until),
                _ => None,
            })
            .collect();
        let rng = &mut self.script.rng;
        let time = match rng.below(20) {
            0..=8 => clock,
            9..=15 => clock + rng.below(theme.step + 1),
            16 => clock + rng.below(theme.leap + 1),
            _ if ends.is_empty() => clock,
            _ => rng.pick(&ends) + rng.below(3) - 1,
        };
        if theme.near_last_time && rng.below(25) == 0 {
            return LAST_TIME;
        }
        time.clamp(clock, LAST_TIME)
    }

    fn bad_time(&mut self) -> u64 {
        let clock = self.clock();
        self.script.rng.bad_time(clock)
    }

    /// Another address than the one meant: of a wrong length, or another's.
    fn bad_address(&mut self) -> Vec<u8> {
        let address = self.address();
        let rng = &mut self.script.rng;
        let mut bad = address.clone();
        match rng.below(6) {
            0 | 1 => bad.resize(20 - self.family, 0),
            2 => bad = rng.bytes(20 - self.family),
            3 | 4 => bad.resize(rng.pick(&[0, 1, 3, 5, 8, 15, 17, 32]), 0),
            _ => {}
        }
        bad
    }

    pub fn address(&mut self) -> Vec<u8> {
        self.script.rng.pick(&self.addresses)
    }

    fn some_port(&mut self, theme: &Theme) -> u16 {
        self.first_port.wrapping_add(self.script.rng.below(theme.ports) as u16)
    }

    pub fn plan(&self, source: &[u8], port: u16) -> Plan {
        Plan {
            source: source.to_vec(),
            destination: self.own.clone(),
            source_port: port,
            destination_port: self.port,
            sequence: 0,
            acknowledgement: 0,
            flags: SYN,
            window: 65_535,
            urgent: 0,
            options: Vec::new(),
            payload: Vec::new(),
            reserved: 0,
            offset: None,
            length: None,
            sum: Sum::Right,
        }
    }

    /// Options for an opening from an address, mostly with a cookie of some worth.
    pub fn options(&mut self, theme: &Theme, source: &[u8]) -> Vec<u8> {
        let other = self.address();
        let codings = self.codings();
        let present = *self.keys.last().unwrap_or(&[0; 16]);
        let back = |steps: usize| self.keys.iter().rev().nth(steps).copied().unwrap_or(present);
        let mut offered = cookie(&present, source).to_vec();
        let rng = &mut self.script.rng;
        match rng.weighted(&[theme.right, 22, 8, 12, 5, 4, 3, 5, 5, 5, 20, 17]) {
            0 => {}
            1 => offered = cookie(&back(1), source).to_vec(),
            2 => offered = cookie(&back(2), source).to_vec(),
            3 => offered.clear(),
            4 => offered = rng.bytes(8),
            5 => offered[rng.index(8)] ^= 1 << rng.below(8),
            6 => offered = cookie(&present, &other).to_vec(),
            7 => {
                // the whole block's encryption, or less or more of it than a cookie
                let mut block = [0; 16];
                block[..source.len()].copy_from_slice(source);
                offered = Schedule::expand(&present).encrypt(&block).to_vec();
                offered.truncate(rng.pick(&[4, 6, 10, 12, 14, 16]));
            }
            8 => return area_with(rng, &[wire::mss_option(1460).to_vec()]),
            9 => return wild_area(rng, &offered),
            10 => return experiment_area(rng, &offered),
            _ => return telling_area(rng, &offered, codings),
        }
        let fast_open = some_coding(rng, codings).option(&offered);
        let mut wanted = vec![wire::mss_option(rng.next() as u16).to_vec(), fast_open];
        if rng.percent(20) {
            wanted.swap(0, 1);
        }
        if rng.percent(5) {
            // the list ends before it, or there is an option that can't be stepped over
            let stop = rng.pick(&[vec![wire::END_OF_LIST], vec![5, 0], vec![5, 1], vec![8, 40]]);
            wanted.insert(0, stop);
        }
        if rng.percent(8) {
            // a second one, in either coding; the first that counts is used
            let second = rng.bytes(8);
            wanted.push(rng.pick(&CODINGS).option(&second));
            if rng.percent(40) {
                let last = wanted.len() - 1;
                wanted.swap(last - 1, last);
            }
        }
        area_with(rng, &wanted)
    }

    /// A name that isn't in the table, if one is easily found.
    fn new_name(&mut self, theme: &Theme) -> (Vec<u8>, u16) {
        let mut name = (self.address(), self.some_port(theme));
        for _ in 0..8 {
            let taken = self.slots(|slot| slot.status != Status::Free);
            if !taken.iter().any(|s| s.port() == name.1 && s.address(self.family) == name.0) {
                break;
            }
            name = (self.address(), self.some_port(theme));
        }
        name
    }

    fn open(&mut self, theme: &Theme) {
        let plan = self.opening(theme);
        self.segment(theme, plan);
    }

    /// An opening for a new name.
    pub fn opening(&mut self, theme: &Theme) -> Plan {
        let (source, port) = self.new_name(theme);
        let mut plan = self.plan(&source, port);
        plan.options = self.options(theme, &source);
        plan.sequence = self.script.rng.sequence();
        plan.payload = self.script.rng.payload();
        if self.script.rng.percent(4) {
            // around the early room now set
            let room = self.script.session.listener.front().map_or(0, |f| f.current_settings().room);
            let around = (u64::from(room) + self.script.rng.below(3)).saturating_sub(1);
            plan.payload = self.script.rng.bytes(around.min(1460) as usize);
        }
        if self.script.rng.percent(5) {
            plan.acknowledgement = self.script.rng.sequence();
        }
        plan
    }

    fn open_again(&mut self, theme: &Theme) {
        let plan = self.second_opening(theme);
        self.segment(theme, plan);
    }

    /// An opening for a name that is there already.
    pub fn second_opening(&mut self, theme: &Theme) -> Plan {
        let unfinished = self.script.rng.percent(70);
        let wanted = |slot: &Slot| slot.status != Status::Free && (!unfinished || slot.expected().is_some());
        let Some(slot) = self.some_slot(wanted) else { return self.opening(theme) };
        let source = slot.address(self.family);
        let mut plan = self.plan(&source, slot.port());
        plan.options = self.options(theme, &source);
        plan.sequence = slot.irs;
        plan.payload = self.script.rng.payload();
        if self.script.rng.percent(30) {
            plan.sequence =
                self.script.rng.pick(&[slot.irs.wrapping_add(1), slot.irs.wrapping_sub(1), !slot.irs]);
        }
        plan
    }

    /// A slot to try something on, mostly one in the right state, or else one made up.
    fn target(&mut self, right: fn(&Slot) -> bool) -> Slot {
        let slot = match self.script.rng.below(20) {
            0..=14 => self.some_slot(right),
            15..=17 => self.some_slot(|slot| slot.status != Status::Free && !right(slot)),
            // stale names in free slots are tried too
            18 => self.some_slot(|slot| slot.port() != 0),
            _ => None,
        };
        slot.or_else(|| self.some_slot(|_| true)).unwrap_or(Slot::FREE)
    }

    fn complete(&mut self, theme: &Theme) {
        let plan = self.completion(theme);
        self.segment(theme, plan);
    }

    /// A completion, mostly one that is admitted.
    pub fn completion(&mut self, theme: &Theme) -> Plan {
        let slot = self.target(|slot| slot.expected().is_some());
        let mut plan = self.plan(&slot.address(self.family), slot.port());
        let rng = &mut self.script.rng;
        plan.flags = ACK;
        plan.sequence = slot.expected().unwrap_or(slot.irs.wrapping_add(1));
        plan.acknowledgement = slot.iss.wrapping_add(1);
        match rng.below(20) {
            0..=9 => {}
            10..=12 => plan.sequence = plan.sequence.wrapping_add(rng.pick(&[1, 10, 1460, 65_533, 65_534])),
            13 | 14 => plan.sequence = plan.sequence.wrapping_add(rng.pick(&[u32::MAX, 65_535, 65_536])),
            15 => plan.sequence = rng.sequence(),
            16 => plan.acknowledgement = plan.acknowledgement.wrapping_add(rng.pick(&NUDGES)),
            17 => plan.sequence = slot.irs.wrapping_add(rng.below(3) as u32),
            _ => plan.flags |= FIN,
        }
        if rng.percent(30) {
            plan.payload = rng.payload();
        }
        if rng.percent(20) {
            let source = plan.source.clone();
            plan.options = self.options(theme, &source);
        }
        plan
    }

    fn reset(&mut self, theme: &Theme) {
        let plan = self.resetting(theme);
        self.segment(theme, plan);
    }

    /// A reset, mostly of an early connection and one that is admitted.
    pub fn resetting(&mut self, theme: &Theme) -> Plan {
        let early = self.script.rng.percent(70);
        let slot = if early {
            self.target(|slot| matches!(slot.status, Status::Early { .. }))
        } else {
            self.target(|slot| slot.expected().is_some())
        };
        let mut plan = self.plan(&slot.address(self.family), slot.port());
        let rng = &mut self.script.rng;
        plan.flags = RST | rng.pick(&[0, 0, 0, ACK, FIN, ACK | FIN]);
        plan.sequence = slot.expected().unwrap_or(slot.irs.wrapping_add(1));
        plan.acknowledgement = rng.pick(&[0, slot.iss.wrapping_add(1)]);
        match rng.below(20) {
            0 => plan.sequence = plan.sequence.wrapping_add(rng.pick(&NUDGES)),
            1 => plan.sequence = slot.irs.wrapping_add(rng.below(3) as u32),
            2 => plan.sequence = plan.sequence.wrapping_sub(1),
            _ => {}
        }
        if rng.percent(20) {
            let source = plan.source.clone();
            plan.options = self.options(theme, &source);
        }
        plan
    }

    fn kinds(&mut self, theme: &Theme) {
        let plan = self.any_kind(theme);
        self.segment(theme, plan);
    }

    /// All flag combinations on all sorts of names, numbers being right where they can be.
    pub fn any_kind(&mut self, theme: &Theme) -> Plan {
        let slot = self.target(|slot| slot.expected().is_some());
        let mut plan = self.plan(&slot.address(self.family), slot.port());
        plan.flags = self.script.rng.next() as u8;
        plan.sequence = slot.expected().unwrap_or(0);
        plan.acknowledgement = slot.iss.wrapping_add(1);
        let source = plan.source.clone();
        plan.options = self.options(theme, &source);
        plan
    }

    /// Several behind one address, with one cookie and one initial number.
    fn twins(&mut self, theme: &Theme) {
        let source = self.address();
        let options = self.options(theme, &source);
        let irs = self.script.rng.sequence();
        let first = self.some_port(theme);
        for twin in 0..self.script.rng.within(2, 4) {
            let mut plan = self.plan(&source, first.wrapping_add(twin as u16));
            plan.options = options.clone();
            plan.sequence = irs;
            plan.payload = self.script.rng.payload();
            self.segment(theme, plan);
        }
    }

    /// Something on a held name, just before its end, at it, or after.
    fn hold(&mut self, theme: &Theme) {
        let clock = self.clock();
        let held = |slot: &Slot| matches!(slot.status, Status::Held { until } if until > clock);
        let Some(slot) = self.some_slot(held) else { return self.reset(theme) };
        let Status::Held { until } = slot.status else { return };
        let source = slot.address(self.family);
        let rng = &mut self.script.rng;
        if until - clock < 3000 || rng.percent(20) {
            self.meeting = Some(until - 1 + rng.pick(&[0, 0, 1, 1, 1, 2]));
        }
        match rng.below(8) {
            0 => self.on_name(theme, "abandon", &slot),
            1 => self.on_name(theme, "resend", &slot),
            2 => self.on_name(theme, "close", &slot),
            // another name, which gets the place or the pending number
            3 | 4 => self.open(theme),
            kind => {
                let mut plan = self.plan(&source, slot.port());
                plan.options = self.options(theme, &source);
                plan.sequence = slot.irs;
                if kind == 5 {
                    plan.flags = RST;
                    plan.sequence = slot.irs.wrapping_add(1);
                }
                plan.payload = self.script.rng.payload();
                self.segment(theme, plan);
            }
        }
        self.meeting = None;
    }

    /// A change of the coding setting alone: before it an opening, after it that one's repeat, a
    /// resend, and another opening with the same options.
    fn turn_codings(&mut self, theme: &Theme) {
        let Some(front) = self.script.session.listener.front() else { return self.open(theme) };
        let mut settings = front.current_settings();
        settings.codings = match settings.codings {
            Codings::New => Codings::Both,
            Codings::Both => Codings::New,
        };
        let (source, port) = self.new_name(theme);
        let mut plan = self.plan(&source, port);
        plan.options = self.options(theme, &source);
        plan.sequence = self.script.rng.sequence();
        plan.payload = self.script.rng.payload();
        self.segment(theme, plan.clone());
        let time = self.time(theme);
        self.set(time, &settings);
        self.segment(theme, plan.clone());
        if let Some(slot) = self.slot_of(&plan) {
            self.on_name(theme, "resend", &slot);
        }
        plan.source_port = self.some_port(theme);
        self.segment(theme, plan);
    }

    /// A connection of which every segment has options that tell: its opening and repeats,
    /// perhaps with Fast Open off, and then a completion or a reset, of which nothing is told.
    fn tell(&mut self, theme: &Theme) {
        let Some(front) = self.script.session.listener.front() else { return self.open(theme) };
        let settings = front.current_settings();
        let turned = self.script.rng.percent(50);
        if turned {
            let time = self.time(theme);
            self.set(time, &Settings { on: false, ..settings });
        }
        let (source, port) = self.new_name(theme);
        let mut plan = self.plan(&source, port);
        plan.sequence = self.script.rng.sequence();
        plan.payload = self.script.rng.payload();
        for _ in 0..3 {
            plan.options = self.telling_options(&source);
            self.segment(theme, plan.clone());
        }
        if turned {
            let time = self.time(theme);
            self.set(time, &settings);
        }
        let Some(slot) = self.slot_of(&plan) else { return };
        plan.flags = self.script.rng.pick(&[ACK, ACK | FIN, RST]);
        plan.sequence = slot.expected().unwrap_or(slot.irs);
        plan.acknowledgement = slot.iss.wrapping_add(1);
        plan.options = self.telling_options(&source);
        self.segment(theme, plan);
    }

    fn telling_options(&mut self, source: &[u8]) -> Vec<u8> {
        let offered = cookie(self.keys.last().unwrap_or(&[0; 16]), source);
        let codings = self.codings();
        telling_area(&mut self.script.rng, &offered, codings)
    }

    /// One address up to its share and past it. Then its number changes, or the share does, and it
    /// comes again.
    fn share(&mut self, theme: &Theme) {
        let Some(front) = self.script.session.listener.front() else { return self.open(theme) };
        let before = front.current_settings();
        let source = self.address();
        let time = self.time(theme);
        let (own, all) = (self.pending_from(&source, time), self.pending(time));
        let rng = &mut self.script.rng;
        let more = rng.within(1, 3) as u32;
        let limit = match rng.below(8) {
            // reached before the share, or with it
            0 => all + more - 1,
            1 => all + more,
            _ => 64,
        };
        let hold = rng.pick(&[1, 2, 7, 40]);
        let codings = rng.pick(&[before.codings, Codings::Both, Codings::Both]);
        let share = (own + more).min(WHOLE_SHARE);
        let settings = Settings { on: true, limit: limit.min(64), hold, codings, share, ..before };
        let there = self.slots(|slot| slot.expected().is_some());
        self.set(time, &settings);
        for left in (0..more).rev() {
            if left == 0 || self.script.rng.percent(30) {
                // while there is a place left, there is a fresh cookie
                let offer = self.script.rng.pick(&[Offer::Request, Offer::Wrong, Offer::Outdated]);
                self.knock(theme, time, &source, offer);
            }
            self.knock(theme, time, &source, Offer::Right);
        }
        self.at_the_share(theme, &source);
        for _ in 0..self.script.rng.pick(&[1, 1, 2]) {
            match self.script.rng.below(8) {
                0 | 1 => self.make_room(theme, &source, Offer::Right),
                2..=4 => self.make_room_later(theme, &source),
                5 | 6 => self.turn_key(theme, &source),
                _ => self.lower_and_raise(theme, &source),
            }
            self.at_the_share(theme, &source);
        }
        self.clear(&there);
        if self.script.rng.percent(80) {
            let clock = self.clock();
            self.set(clock, &before);
        }
    }

    /// What an address can try when its share is taken, and what others still can.
    fn at_the_share(&mut self, theme: &Theme, source: &[u8]) {
        let clock = self.clock();
        for _ in 0..self.script.rng.within(1, 3) {
            match self.script.rng.below(11) {
                0..=2 => self.knock(theme, clock, source, Offer::Right),
                3 => self.knock(theme, clock, source, Offer::Request),
                4 => self.knock(theme, clock, source, Offer::Wrong),
                5 => self.knock(theme, clock, source, Offer::Outdated),
                6..=8 => {
                    let other = self.neighbour(source);
                    let offer =
                        self.script.rng.pick(&[Offer::Right, Offer::Right, Offer::Right, Offer::Request]);
                    self.knock(theme, clock, &other, offer);
                }
                9 => {
                    // refused, so the share stays
                    let Some(front) = self.script.session.listener.front() else { continue };
                    let share = self.script.rng.pick(&NO_SHARES);
                    self.set(clock, &Settings { share, ..front.current_settings() });
                    self.knock(theme, clock, source, Offer::Right);
                }
                _ => {
                    let family = self.family;
                    let mine = |slot: &Slot| slot.expected().is_some() && slot.address(family) == source;
                    let Some(slot) = self.some_slot(mine) else { continue };
                    let mut plan = self.plan(source, slot.port());
                    plan.options = self.options(theme, source);
                    plan.sequence = slot.irs;
                    self.undamaged(clock, &plan);
                }
            }
        }
    }

    /// One that is early, if there is one, is completed or abandoned; then two more come.
    fn make_room(&mut self, theme: &Theme, source: &[u8], offer: Offer) {
        let clock = self.clock();
        let Some(slot) = self.early_from(source) else { return };
        if self.script.rng.percent(35) {
            let line = Line::new("abandon").u64(clock).bytes(source).u16(slot.port());
            self.script.call(&line);
        } else {
            let mut plan = self.plan(source, slot.port());
            plan.flags = ACK;
            plan.sequence = slot.expected().unwrap_or(0);
            plan.acknowledgement = slot.iss.wrapping_add(1);
            self.undamaged(clock, &plan);
            if self.script.rng.percent(50) {
                let line = Line::new("close").u64(clock).bytes(source).u16(slot.port());
                self.script.call(&line);
            }
        }
        self.knock(theme, clock, source, offer);
        self.knock(theme, clock, source, offer);
    }

    /// One that is early is reset, which makes no room before its hold has ended.
    fn make_room_later(&mut self, theme: &Theme, source: &[u8]) {
        let clock = self.clock();
        let Some(slot) = self.early_from(source) else { return };
        let mut plan = self.plan(source, slot.port());
        plan.flags = RST;
        plan.sequence = slot.expected().unwrap_or(0);
        self.undamaged(clock, &plan);
        let Some(Status::Held { until }) = self.slot_of(&plan).map(|slot| slot.status) else { return };
        for time in self.script.rng.pick(&[[until - 1, until], [until - 1, until + 1], [clock, until]]) {
            let time = time.clamp(self.clock(), LAST_TIME);
            self.knock(theme, time, source, Offer::Right);
        }
    }

    /// A new key, so that there are cookies which are right and yet replaced.
    fn turn_key(&mut self, theme: &Theme, source: &[u8]) {
        let clock = self.clock();
        let key = self.script.rng.bytes(16);
        let done = self.script.call(&Line::new("key").u64(clock).bytes(&key));
        if let (true, Ok(key)) = (done, key.try_into()) {
            self.keys.push(key);
        }
        self.knock(theme, clock, source, Offer::Outdated);
        self.make_room(theme, source, Offer::Outdated);
    }

    /// A share below the address's number, under which what is there stays and counts; then one
    /// above it.
    fn lower_and_raise(&mut self, theme: &Theme, source: &[u8]) {
        let Some(front) = self.script.session.listener.front() else { return };
        let (clock, settings) = (front.clock(), front.current_settings());
        let own = self.pending_from(source, clock);
        let lower = own.saturating_sub(self.script.rng.below(3) as u32).max(1);
        self.set(clock, &Settings { share: lower, ..settings });
        self.knock(theme, clock, source, Offer::Right);
        self.make_room(theme, source, Offer::Right);
        let own = self.pending_from(source, clock);
        self.set(clock, &Settings { share: (own + 1).min(WHOLE_SHARE), ..settings });
        self.knock(theme, clock, source, Offer::Right);
    }

    /// Abandons most of those that weren't there, so that they don't fill the table and the limit.
    fn clear(&mut self, there: &[Slot]) {
        let clock = self.clock();
        for slot in self.slots(|slot| slot.expected().is_some()) {
            if there.iter().any(|old| old.name == slot.name) || self.script.rng.percent(10) {
                continue;
            }
            let source = slot.address(self.family);
            self.script.call(&Line::new("abandon").u64(clock).bytes(&source).u16(slot.port()));
        }
    }

    fn pending(&self, time: u64) -> u32 {
        self.slots(|slot| slot.is_pending(time)).len() as u32
    }

    fn pending_from(&self, source: &[u8], time: u64) -> u32 {
        self.slots(|slot| slot.is_pending(time) && slot.address(self.family) == source).len() as u32
    }

    fn early_from(&mut self, source: &[u8]) -> Option<Slot> {
        let family = self.family;
        self.some_slot(|slot| matches!(slot.status, Status::Early { .. }) && slot.address(family) == source)
    }

    /// Another address, often only one bit away.
    fn neighbour(&mut self, source: &[u8]) -> Vec<u8> {
        let other = self.address();
        if other != source && self.script.rng.percent(50) {
            return other;
        }
        let mut near = source.to_vec();
        let bit = self.script.rng.index(8 * self.family);
        near[bit / 8] ^= 1 << (bit % 8);
        near
    }

    /// A new opening, now and then behind a copy that is refused and so changes nothing.
    fn knock(&mut self, theme: &Theme, time: u64, source: &[u8], offer: Offer) {
        let plan = self.newcomer(theme, source, offer);
        if self.script.rng.percent(theme.damage) {
            self.refused(time, plan.clone());
        }
        self.undamaged(time, &plan);
    }

    /// An opening from a port of the address that isn't in the table.
    pub fn newcomer(&mut self, theme: &Theme, source: &[u8], offer: Offer) -> Plan {
        let family = self.family;
        let taken = self.slots(|slot| slot.status != Status::Free && slot.address(family) == source);
        let mut port = self.some_port(theme);
        while taken.iter().any(|slot| slot.port() == port) {
            port = port.wrapping_add(1);
        }
        let mut plan = self.plan(source, port);
        let codings = self.codings();
        let present = *self.keys.last().unwrap_or(&[0; 16]);
        let outdated = self.keys.iter().rev().nth(1).unwrap_or(&present);
        let rng = &mut self.script.rng;
        let offered = match offer {
            Offer::Right => cookie(&present, source).to_vec(),
            Offer::Outdated => cookie(outdated, source).to_vec(),
            Offer::Wrong => rng.bytes(8),
            Offer::Request => Vec::new(),
        };
        let fast_open = counted(rng, codings).option(&offered);
        plan.options = area_with(rng, &[wire::mss_option(1460).to_vec(), fast_open]);
        plan.sequence = rng.sequence();
        let length = rng.within(1, 40) as usize;
        plan.payload = rng.bytes(length);
        plan
    }

    fn undamaged(&mut self, time: u64, plan: &Plan) {
        let (ours, out) = (self.script.rng.sequence(), self.output());
        let line =
            Line::new("segment").u64(time).bytes(&plan.source).u32(ours).out(out).bytes(&plan.encode());
        self.script.call(&line);
    }

    /// The opening with a damage for which it is refused, whatever is in the table.
    fn refused(&mut self, mut time: u64, mut plan: Plan) {
        let (ours, mut out) = (self.script.rng.sequence(), self.output());
        let mut source = plan.source.clone();
        match self.script.rng.below(9) {
            0 => time = self.bad_time(),
            1 => source.resize(20 - self.family, 0),
            2 => out = self.small_output(),
            3 => plan.length = Some(self.script.rng.pick(&[19, 1521])),
            4 | 5 => plan.sum = Sum::Off(1 << self.script.rng.below(16)),
            6 | 7 => plan.destination_port ^= self.script.rng.pick(&[1, 256, 0x8000]),
            _ => plan.flags |= self.script.rng.pick(&[ACK, RST, FIN]),
        }
        let line = Line::new("segment").u64(time).bytes(&source).u32(ours).out(out).bytes(&plan.encode());
        self.script.call(&line);
    }

    /// The slot of a plan's name.
    pub fn slot_of(&mut self, plan: &Plan) -> Option<Slot> {
        let family = self.family;
        self.some_slot(|slot| slot.port() == plan.source_port && slot.address(family) == plan.source)
    }

    fn noise(&mut self, theme: &Theme) {
        let time = self.time(theme);
        let source = self.address();
        let bytes = noise(&mut self.script.rng, &source, &self.own, self.port);
        let ours = self.script.rng.sequence();
        let line = Line::new("segment").u64(time).bytes(&source).u32(ours).out(36).bytes(&bytes);
        self.script.call(&line);
    }

    fn output(&mut self) -> usize {
        self.script.rng.pick(&[36, 36, 36, 36, 36, 36, 37, 40, 100, 2047, 2048])
    }

    fn small_output(&mut self) -> usize {
        self.script.rng.pick(&[0, 1, 23, 24, 35, 35, 35])
    }

    fn segment(&mut self, theme: &Theme, mut plan: Plan) {
        let mut time = self.time(theme);
        let mut source = plan.source.clone();
        let mut out = self.output();
        let ours = self.script.rng.sequence();
        plan.decorate(&mut self.script.rng);
        if self.script.rng.percent(theme.damage) {
            // Often more than one at once, so that the order of refusals shows.
            for _ in 0..self.script.rng.pick(&[1, 1, 1, 2, 2, 3, 4]) {
                match self.script.rng.weighted(&[9, 9, 10, 18, 60]) {
                    0 => time = self.bad_time(),
                    1 => source = self.bad_address(),
                    2 => out = self.small_output(),
                    3 => plan.destination_port ^= self.script.rng.pick(&[1, 256, 0x8000]),
                    _ => plan.damage(&mut self.script.rng),
                }
            }
        }
        let bytes = plan.encode();
        let line = Line::new("segment").u64(time).bytes(&source).u32(ours).out(out).bytes(&bytes);
        self.script.call(&line);
    }

    fn by_name(&mut self, theme: &Theme, name: &'static str) {
        let slot = if name == "close" {
            self.target(|slot| slot.status == Status::Open)
        } else {
            self.target(|slot| slot.expected().is_some())
        };
        self.on_name(theme, name, &slot);
    }

    fn on_name(&mut self, theme: &Theme, name: &'static str, slot: &Slot) {
        let mut time = self.time(theme);
        let mut source = slot.address(self.family);
        let mut port = slot.port();
        let mut out = self.output();
        if self.script.rng.percent(theme.damage) {
            for _ in 0..self.script.rng.pick(&[1, 1, 2, 3]) {
                match self.script.rng.below(4) {
                    0 => time = self.bad_time(),
                    1 => source = self.bad_address(),
                    2 => out = self.small_output(),
                    _ => port ^= 1,
                }
            }
        }
        let mut line = Line::new(name).u64(time).bytes(&source).u16(port);
        if name == "resend" {
            line = line.out(out);
        }
        self.script.call(&line);
    }

    /// Settings in range that suit a theme.
    pub fn suited(&mut self, theme: &Theme, must_be_on: bool) -> Settings {
        let rng = &mut self.script.rng;
        Settings {
            on: rng.percent(93) || must_be_on,
            limit: rng.pick(theme.limits),
            room: rng.pick(&[1460, 1460, 1459, 100, 20, 10, 1, 0]),
            hold: rng.pick(theme.holds),
            mss: rng.pick(&[1460, 536, 537, 1459, 1220]),
            codings: rng.pick(&[Codings::New, Codings::Both]),
            share: rng.pick(theme.shares),
        }
    }

    /// A settings call, at a given time an in-range one that suits the theme.
    pub fn settings(&mut self, theme: &Theme, time: Option<u64>) {
        let mut at = time.unwrap_or_else(|| self.time(theme));
        let mut settings = self.suited(theme, theme.brim && time.is_some());
        let rng = &mut self.script.rng;
        if time.is_none() {
            if rng.percent(20) {
                settings.limit = rng.below(65) as u32;
                settings.hold = rng.pick(&[0, 1, 65_534, 65_535]);
                settings.room = rng.below(1461) as u32;
                settings.mss = rng.within(536, 1460) as u32;
                let any = rng.within(1, 64) as u32;
                settings.share = rng.pick(&[any, 1, 63, 64]);
            }
            if rng.percent(50) {
                for _ in 0..rng.pick(&[1, 1, 1, 2]) {
                    put_out_of_range(rng, &mut settings);
                }
            }
            if rng.percent(12) {
                at = self.bad_time();
            }
        }
        self.set(at, &settings);
    }

    /// A settings call with these, now and then with a wrong word for the coding or the share
    /// before it.
    fn set(&mut self, time: u64, settings: &Settings) {
        let line = settings_line(time, settings);
        if self.script.rng.percent(6) {
            let wrong = line.miscoded(&mut self.script.rng);
            self.script.raw(&wrong);
        }
        if self.script.rng.percent(9) {
            let wrong = line.misshared(&mut self.script.rng);
            self.script.raw(&wrong);
        }
        self.script.call(&line);
    }

    pub fn key(&mut self, theme: &Theme) {
        let mut time = self.time(theme);
        if self.script.rng.percent(8) {
            time = self.bad_time();
        }
        let rng = &mut self.script.rng;
        let back = |steps: usize| self.keys.iter().rev().nth(steps).map(|key| key.to_vec());
        let key = match rng.below(20) {
            0..=2 => back(0),
            3 => back(1),
            4 => back(2),
            5 | 6 => {
                let length = rng.pick(&[0, 1, 8, 15, 17, 32]);
                Some(rng.bytes(length))
            }
            _ => None,
        };
        let key = key.unwrap_or_else(|| rng.bytes(16));
        let done = self.script.call(&Line::new("key").u64(time).bytes(&key));
        if let (true, Ok(key)) = (done, key.try_into()) {
            self.keys.push(key);
        }
    }
}

pub fn settings_line(time: u64, settings: &Settings) -> Line {
    Line::new("settings")
        .u64(time)
        .text(if settings.on { "on" } else { "off" })
        .u32(settings.limit)
        .u32(settings.room)
        .u32(settings.hold)
        .u32(settings.mss)
        .codings(settings.codings)
        .share(settings.share)
}

/// Makes one of the settings one that is refused.
pub fn put_out_of_range(rng: &mut Rng, settings: &mut Settings) {
    match rng.below(5) {
        0 => settings.limit = rng.pick(&[65, 65, 65, 66, 256 + 8, 65_536, u32::MAX]),
        1 => settings.room = rng.pick(&[1461, 1461, 1461, 65_536 + 100, u32::MAX]),
        2 => settings.hold = rng.pick(&[65_536, 65_536, 65_536, 131_072, u32::MAX]),
        3 => settings.mss = rng.pick(&[0, 535, 535, 1461, 1461, 65_536 + 1000, u32::MAX]),
        _ => settings.share = rng.pick(&NO_SHARES),
    }
}
