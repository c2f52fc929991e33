//! Document 01, "Watching, by history": watching and windows, read off the past frames. Frames are
//! numbered from 1; `upto` is the last frame looked at.

use super::facts::{Facts, Start};
use crate::fault::Fault;
use crate::frame::{Packet, Payload};
use crate::options;
use crate::state::{Monitor, State};

/// The past frames, with what they say.
pub struct Past<'a> {
    pub base: &'a State,
    pub frames: &'a [Payload],
    pub facts: &'a Facts,
}

/// What a window holds: how many matching packets, their RSSI's sum, and the latest.
pub struct Window {
    pub count: u64,
    pub sum: i64,
    pub event_type: u8,
    pub data: Vec<u8>,
}

impl Past<'_> {
    pub fn monitor(&self, start: &Start) -> &Monitor {
        &self.facts.lives[start.life].monitor
    }

    /// How many ticks stand after frame `after`, up to and with frame `upto`.
    fn ticks(&self, after: usize, upto: usize) -> usize {
        self.facts.ticks[upto] - self.facts.ticks[after]
    }

    /// The packets after a start that count for it: of its device, matching its monitor's condition.
    fn counting<'s>(&'s self, start: &'s Start, upto: usize) -> impl Iterator<Item = (usize, &'s Packet)> {
        let handle = self.monitor(start).handle;
        let packets = &self.facts.packets;
        let first = packets.partition_point(|i| *i <= start.at);
        let since = packets[first..].iter().copied().take_while(move |i| *i <= upto);
        since.filter_map(move |i| match &self.frames[i - 1] {
            Payload::Packet(packet) => (self.facts.matching[i] >> handle & 1 == 1
                && packet.device == start.device)
                .then_some((i, packet)),
            _ => None,
        })
    }

    /// "A packet is good if its RSSI is above low." The packets after the start: at equal thresholds one at the
    /// shared value is low.
    fn good<'s>(&'s self, start: &'s Start, upto: usize) -> impl Iterator<Item = usize> + 's {
        let low = self.monitor(start).low;
        self.counting(start, upto).filter(move |(_, packet)| packet.rssi > low).map(|(i, _)| i)
    }

    /// The runs of ticks without a good packet since a start: their lengths, the last one still open. "A start
    /// packet now counts as good even when its RSSI is not above low" (T-01): the first run begins at the start.
    /// What a pair of the base holds stands for the ticks before the first frame.
    fn runs(&self, start: &Start, upto: usize) -> Vec<usize> {
        let mut ends: Vec<usize> = self.good(start, upto).collect();
        ends.push(upto);
        let mut begin = start.at;
        let mut lengths = Vec::with_capacity(ends.len());
        for end in ends {
            lengths.push(self.ticks(begin, end));
            begin = end;
        }
        if let Some(place) = start.held {
            lengths[0] += self.base.pairs[place].quiet as usize;
        }
        lengths
    }

    /// "Each pair keeps its latest matching RSSI": that of its start, or of the latest packet since that counts for it.
    pub fn kept(&self, start: &Start, upto: usize) -> i8 {
        if let Some((_, packet)) = self.counting(start, upto).last() {
            return packet.rssi;
        }
        match (start.held, start.at.checked_sub(1).map(|index| &self.frames[index])) {
            (Some(place), _) => self.base.pairs[place].rssi,
            (None, Some(Payload::Packet(packet))) => packet.rssi,
            _ => unreachable!("a start is a packet"),
        }
    }

    /// The frames since a start that are a reason for a report for its pair, filter on or off: the start itself, and
    /// with sampling 0 every packet that counts, where the monitor asks for reports of such packets (T-13). "A duplicate
    /// has the event type and advertisement data of the last packet that was a reason for a report for that pair, filter on
    /// or off, looking no further back than its latest start, and is itself no reason for one; a start packet is never
    /// a duplicate."
    pub fn reasons(&self, start: &Start, upto: usize) -> Vec<usize> {
        let monitor = self.monitor(start);
        let asked = |packet: &Packet| options::reported(monitor, packet.event_type, Fault::None);
        let mut reasons = Vec::new();
        if let (None, Some(packet)) = (start.held, self.packet(start.at)) {
            reasons.extend(asked(packet).then_some(start.at));
        }
        if monitor.sampling != 0 {
            return reasons;
        }
        let filters = options::filters_duplicates(monitor);
        for (i, packet) in self.counting(start, upto) {
            let last = reasons.last().and_then(|last| self.packet(*last));
            let kept =
                last.map(|last| (last.event_type, last.data.clone())).or_else(|| self.held_packet(start));
            let duplicate = filters && kept == Some((packet.event_type, packet.data.clone()));
            if asked(packet) && !duplicate {
                reasons.push(i);
            }
        }
        reasons
    }

    /// The packet that a pair keeps for duplicates: its event type and data.
    pub fn kept_packet(&self, start: &Start, upto: usize) -> Option<(u8, Vec<u8>)> {
        let last = self.reasons(start, upto).last().and_then(|last| self.packet(*last));
        last.map(|last| (last.event_type, last.data.clone())).or_else(|| self.held_packet(start))
    }

    /// What a pair of the base keeps.
    fn held_packet(&self, start: &Start) -> Option<(u8, Vec<u8>)> {
        let pair = &self.base.pairs[start.held?];
        (pair.event_type != 0xFF).then(|| (pair.event_type, pair.latest().to_vec()))
    }

    /// The packet of a frame.
    fn packet(&self, frame: usize) -> Option<&Packet> {
        match self.frames.get(frame.checked_sub(1)?) {
            Some(Payload::Packet(packet)) => Some(packet),
            _ => None,
        }
    }

    /// "The pair is under watch if there is a start since which no run of 10 x interval ticks has passed
    /// without a good packet." A cancelled monitor's pairs are forgotten. "A displaced pair is not under watch until a
    /// new start" (T-05).
    pub fn watched_since(&self, start: &Start, upto: usize) -> bool {
        let live = self.facts.lives[start.life].until.is_none_or(|cancelled| cancelled > upto)
            && start.displaced.is_none_or(|at| at > upto);
        let limit = 10 * self.monitor(start).interval as usize;
        live && self.runs(start, upto).iter().all(|run| *run < limit)
    }

    /// The starts whose pairs are under watch after frame `upto`, in the order they started.
    pub fn under_watch(&self, upto: usize) -> Vec<usize> {
        let starts = self.facts.starts.iter().enumerate();
        starts.filter(|(_, s)| s.at <= upto && self.watched_since(s, upto)).map(|(place, _)| place).collect()
    }

    /// Ticks since a good packet: the run still open.
    pub fn quiet(&self, start: &Start, upto: usize) -> usize {
        *self.runs(start, upto).last().unwrap()
    }

    /// Ticks since the start; for a pair of the base, since its open window began.
    pub fn age(&self, start: &Start, upto: usize) -> usize {
        let before = start.held.map_or(0, |place| self.base.pairs[place].window_ticks as usize);
        before + self.ticks(start.at, upto)
    }

    /// The window with this number (0 is the first): the packets that count, in ticks number x P and up to
    /// the next P. The start packet is in no window.
    pub fn window(&self, start: &Start, number: usize, upto: usize) -> Window {
        let period = self.monitor(start).sampling as usize;
        let mut window = Window { count: 0, sum: 0, event_type: 0, data: Vec::new() };
        if let (Some(place), 0) = (start.held, number) {
            let held = &self.base.pairs[place];
            window.count = held.packets as u64;
            window.sum = held.sum;
            window.event_type = held.event_type;
            window.data = held.latest().to_vec();
        }
        for (i, packet) in self.counting(start, upto) {
            if self.age(start, i) / period == number {
                window.count += 1;
                window.sum += packet.rssi as i64;
                window.event_type = packet.event_type;
                window.data = packet.data.clone();
            }
        }
        window
    }

    /// The window that is open after frame `upto`.
    pub fn open_window(&self, start: &Start, upto: usize) -> Window {
        let period = self.monitor(start).sampling as usize;
        self.window(start, self.age(start, upto) / period, upto)
    }

    /// The window that frame `upto`, a tick, closes: "each P-th tick since the start closes a window".
    pub fn closed_window(&self, start: &Start, upto: usize) -> Option<Window> {
        let period = self.monitor(start).period()? as usize;
        let age = self.age(start, upto);
        match age % period {
            0 => Some(self.window(start, age / period - 1, upto)),
            _ => None,
        }
    }
}
