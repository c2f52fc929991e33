//! What the past frames say, remembered frame by frame: when each monitor lived, which live monitors a
//! packet matches, how many ticks had passed, and which packets were starts. Frames are numbered from 1
//! here; 0 is the base.

use super::rule::Past;
use crate::command::{self, Change, View};
use crate::edition::Edition;
use crate::fault::Fault;
use crate::frame::{Packet, Payload};
use crate::limits::PAIRS;
use crate::options;
use crate::state::{Device, Monitor, State};

/// "A monitor is live from the executed command that adds it until the one that cancels it."
#[derive(Clone, PartialEq, Eq, Debug)]
pub struct Life {
    pub monitor: Monitor,
    pub until: Option<usize>,
}

/// A start: a monitor's life, the device, and the packet's frame; `held` is the place of a pair of the base,
/// `displaces` the start whose pair it displaced (document 02, T-05), `displaced` the frame that displaced its own.
#[derive(Clone, PartialEq, Eq, Debug)]
pub struct Start {
    pub life: usize,
    pub device: Device,
    pub at: usize,
    pub held: Option<usize>,
    pub displaces: Option<usize>,
    pub displaced: Option<usize>,
}

#[derive(Clone, PartialEq, Eq, Debug, Default)]
pub struct Facts {
    pub lives: Vec<Life>,
    /// In the order they started; one packet's starts by handle.
    pub starts: Vec<Start>,
    /// `ticks[i]`: how many of the frames 1 to i are ticks.
    pub ticks: Vec<usize>,
    /// Which frames are packets.
    pub packets: Vec<usize>,
    /// `matching[i]`: bit h is set if frame i is a packet that matches the live monitor of handle h.
    pub matching: Vec<u16>,
    /// The return parameters of the last frame, if it is a command.
    pub returns: Vec<u8>,
}

impl Facts {
    /// The facts of a base and frames, from the beginning.
    pub fn of(base: &State, added: &[Edition], frames: &[Payload]) -> Facts {
        let mut facts = Facts { ticks: vec![0], matching: vec![0], ..Facts::default() };
        for monitor in base.monitors() {
            facts.lives.push(Life { monitor: *monitor, until: None });
        }
        for (place, pair) in base.pairs().iter().enumerate() {
            let life = base.monitors().iter().position(|m| m.handle == pair.handle).expect("a sound base");
            let held = Some(place);
            facts.starts.push(Start {
                life,
                device: pair.device,
                at: 0,
                held,
                displaces: None,
                displaced: None,
            });
        }
        for count in 1..=frames.len() {
            facts.learn(base, added, &frames[..count]);
        }
        facts
    }

    /// Learn of the last of these frames.
    pub fn learn(&mut self, base: &State, added: &[Edition], frames: &[Payload]) {
        let now = frames.len();
        let last = &frames[now - 1];
        self.returns.clear();
        self.ticks.push(self.ticks[now - 1] + (*last == Payload::Tick) as usize);
        self.matching.push(match last {
            Payload::Packet(packet) => {
                self.packets.push(now);
                self.matching_now(packet)
            }
            _ => 0,
        });
        match last {
            Payload::Command { parameters, .. } => self.command(base, added, frames, parameters),
            Payload::Packet(packet) => self.starts_of(base, frames, packet),
            Payload::Tick => (),
        }
    }

    /// The lives not ended, handles ascending.
    pub fn live(&self) -> Vec<usize> {
        let mut live: Vec<usize> = (0..self.lives.len()).filter(|l| self.lives[*l].until.is_none()).collect();
        live.sort_by_key(|l| self.lives[*l].monitor.handle);
        live
    }

    fn matching_now(&self, packet: &Packet) -> u16 {
        let mut mask = 0;
        for life in self.live() {
            let m = &self.lives[life].monitor;
            if options::matches(m, packet, Fault::None) {
                mask |= 1 << m.handle;
            }
        }
        mask
    }

    fn command(&mut self, base: &State, added: &[Edition], frames: &[Payload], parameters: &[u8]) {
        let now = frames.len();
        let live = self.live().iter().fold(0, |mask, l| mask | 1 << self.lives[*l].monitor.handle);
        let edition = edition_at(base, added, now);
        let view = View { filter: filter_after(base, &frames[..now - 1]), live, prefix: edition.prefix() };
        let answer = command::answer(&view, parameters, Fault::None);
        match answer.change {
            Change::Add(monitor) => self.lives.push(Life { monitor, until: None }),
            Change::Cancel(handle) => {
                let lives = self.lives.iter_mut();
                lives
                    .filter(|l| l.until.is_none() && l.monitor.handle == handle)
                    .for_each(|l| l.until = Some(now));
            }
            Change::Filter(_) | Change::Nothing => (),
        }
        self.returns = answer.returns;
    }

    /// "It is a start if its RSSI is at least high, the pair is not under watch just before, and fewer than 64 pairs
    /// are; monitors take one packet in handle order, and a start takes its room at once." "When a packet would start
    /// a pair but 64 are under watch, and its RSSI is above the smallest kept one, that pair (the earliest started if
    /// several) gets its stop event and the new one starts. Each monitor in handle order does this in turn."
    fn starts_of(&mut self, base: &State, frames: &[Payload], packet: &Packet) {
        let now = frames.len();
        // The starts under watch, the earliest first, and what each keeps after the present packet.
        let past = Past { base, frames, facts: self };
        let mut watched: Vec<(usize, i8)> = Vec::new();
        for place in past.under_watch(now - 1) {
            watched.push((place, past.kept(&self.starts[place], now)));
        }
        let own = |facts: &Facts, place: usize, life: usize| {
            facts.starts[place].life == life && facts.starts[place].device == packet.device
        };
        for life in self.live() {
            let monitor = &self.lives[life].monitor;
            let matches = self.matching[now] >> monitor.handle & 1 == 1;
            let under_watch = watched.iter().any(|(place, _)| own(self, *place, life));
            if !matches || packet.rssi < monitor.high || under_watch {
                continue;
            }
            let mut displaces = None;
            if watched.len() >= PAIRS {
                // The first of the smallest: `min_by_key` gives the first of several.
                let smallest = (0..watched.len()).min_by_key(|index| watched[*index].1).expect("64 pairs");
                if packet.rssi <= watched[smallest].1 {
                    continue;
                }
                let (place, _) = watched.remove(smallest);
                self.starts[place].displaced = Some(now);
                displaces = Some(place);
            }
            watched.push((self.starts.len(), packet.rssi));
            self.starts.push(Start {
                life,
                device: packet.device,
                at: now,
                held: None,
                displaces,
                displaced: None,
            });
        }
    }
}

/// "A frame uses the edition with the greatest starting number not above its own" (T-12): the frame at this place after
/// the base; 0 is the base itself.
pub fn edition_at<'a>(base: &'a State, added: &'a [Edition], frame: usize) -> &'a Edition {
    let number = base.position as usize + frame;
    let not_above = base.editions().iter().chain(added).filter(|edition| edition.from as usize <= number);
    not_above.max_by_key(|edition| edition.from).expect("the first starts from 0")
}

/// The filter after these frames: what the last 05 with a valid enable asked for. (One that asks for the
/// present setting fails and changes nothing, so it need not be told apart.)
pub fn filter_after(base: &State, frames: &[Payload]) -> u8 {
    let asked = frames.iter().rev().find_map(|frame| match frame {
        Payload::Command { parameters, .. } => match parameters[..] {
            [0x05, enable @ (0 | 1)] => Some(enable),
            _ => None,
        },
        _ => None,
    });
    asked.unwrap_or(base.filter)
}
