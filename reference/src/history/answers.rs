//! The answer to the last frame and the image, by the history rule.

use super::facts::{edition_at, filter_after, Start};
use super::rule::{Past, Window};
use super::History;
use crate::event;
use crate::fault::Fault;
use crate::frame::{Packet, Payload};
use crate::index::Entry;
use crate::limits::DATA;
use crate::month::Done;
use crate::options;
use crate::state::{Device, Pair, State};

impl History {
    fn past(&self) -> Past<'_> {
        Past { base: &self.base, frames: &self.frames, facts: &self.facts }
    }

    /// All octets that the last executed frame writes.
    pub(super) fn answer_to_last(&self) -> Vec<u8> {
        match self.frames.last().expect("a frame was executed") {
            Payload::Command { opcode, .. } => event::command_complete(*opcode, &self.facts.returns),
            Payload::Packet(packet) => self.answer_to_packet(packet),
            Payload::Tick => self.answer_to_tick(),
        }
    }

    /// The prefix of the last frame's events.
    fn prefix(&self) -> &[u8] {
        edition_at(&self.base, &self.added, self.frames.len()).prefix()
    }

    /// "Packet, handles ascending: a start event for each start. Then one report .."
    fn answer_to_packet(&self, packet: &Packet) -> Vec<u8> {
        let past = self.past();
        let now = self.frames.len();
        let starts: Vec<_> = self.facts.starts.iter().filter(|s| s.at == now).collect();
        let mut answer = Vec::new();
        for start in &starts {
            if let Some(gone) = start.displaces.map(|place| &self.facts.starts[place]) {
                let handle = past.monitor(gone).handle;
                answer.extend(event::device(self.prefix(), &gone.device, handle, false));
            }
            answer.extend(event::device(self.prefix(), &start.device, past.monitor(start).handle, true));
        }
        let filter_off = filter_after(&self.base, &self.frames) == 0;
        let reason = self.facts.starts.iter().any(|start| {
            start.device == packet.device
                && past.watched_since(start, now)
                && past.reasons(start, now).last() == Some(&now)
        });
        if filter_off || reason {
            answer.extend(event::report(packet.event_type, &packet.device, &packet.data, packet.rssi));
            // "A second report of event type 4 with the scan response follows" (T-06).
            if let Some(scan) = &packet.scan {
                answer.extend(event::report(4, &packet.device, scan, packet.rssi));
            }
        }
        answer
    }

    /// "Tick, pairs in the order they started: if the watch ends, a stop event and no report. Otherwise .."
    fn answer_to_tick(&self) -> Vec<u8> {
        let past = self.past();
        let now = self.frames.len();
        let filter_on = filter_after(&self.base, &self.frames) == 1;
        let mut answer = Vec::new();
        for start in past.under_watch(now - 1).into_iter().map(|s| &self.facts.starts[s]) {
            if !past.watched_since(start, now) {
                answer.extend(event::device(self.prefix(), &start.device, past.monitor(start).handle, false));
            } else if let Some(window) = past.closed_window(start, now) {
                let fits = options::reported(past.monitor(start), window.event_type, Fault::None);
                if filter_on && window.count > 0 && fits {
                    answer.extend(report(&start.device, &window));
                }
            }
        }
        answer
    }

    /// What the last frame did, by the history rule (T-09).
    pub(super) fn done_by_last(&self) -> Done {
        let past = self.past();
        let now = self.frames.len();
        let mut done = Done::default();
        let Some(last) = now.checked_sub(1) else { return done };
        let starts = |upto| past.under_watch(upto).into_iter().map(|s| &self.facts.starts[s]);
        let handle = |start: &Start| past.monitor(start).handle as usize;
        done.before = starts(last).filter(|s| past.watched_since(s, last)).fold(0, |m, s| m | 1 << handle(s));
        done.after = starts(now).fold(0, |mask, start| mask | 1 << handle(start));
        // A command may have ended a monitor's life: what it watched before was watched.
        let filter_on = filter_after(&self.base, &self.frames) == 1;
        match &self.frames[last] {
            Payload::Packet(packet) => {
                done.matching = self.facts.matching[now];
                (done.rssi, done.off) = (packet.rssi, !filter_on);
                done.each = if packet.scan.is_some() { 2 } else { 1 };
                for start in starts(now).filter(|start| start.device == packet.device) {
                    done.own |= 1 << handle(start);
                    if past.reasons(start, now).last() == Some(&now) {
                        done.reasons |= 1 << handle(start);
                    }
                }
            }
            Payload::Tick => {
                done.tick = true;
                for start in starts(now).filter(|_| filter_on) {
                    let fits = |window: &Window| {
                        let asked = options::reported(past.monitor(start), window.event_type, Fault::None);
                        window.count > 0 && asked
                    };
                    done.windows[handle(start)] +=
                        past.closed_window(start, now).is_some_and(|w| fits(&w)) as u64;
                }
            }
            Payload::Command { .. } => (),
        }
        done
    }

    /// The handles that have a device under watch.
    pub(super) fn watching(&self, device: &Device) -> Vec<u8> {
        let past = self.past();
        let starts = past.under_watch(self.frames.len()).into_iter().map(|s| &self.facts.starts[s]);
        starts.filter(|start| start.device == *device).map(|start| past.monitor(start).handle).collect()
    }

    /// The state whose image this is, every field from the past frames.
    pub(super) fn image_state(&self) -> State {
        let past = self.past();
        let now = self.frames.len();
        let mut state = State::fresh(self.base.opcode, self.prefix());
        let editions: Vec<_> = self.base.editions().iter().chain(&self.added).copied().collect();
        state.hold_editions(&editions);
        state.position = self.position();
        state.filter = filter_after(&self.base, &self.frames);
        for (place, life) in self.facts.live().into_iter().enumerate() {
            state.monitors[place] = self.facts.lives[life].monitor;
            state.monitor_count += 1;
        }
        for (place, start) in past.under_watch(now).into_iter().map(|s| &self.facts.starts[s]).enumerate() {
            let monitor = past.monitor(start);
            let mut pair = Pair { handle: monitor.handle, device: start.device, ..Pair::NONE };
            pair.quiet = past.quiet(start, now) as u16;
            pair.rssi = past.kept(start, now);
            if let Some(period) = monitor.period() {
                let window = past.open_window(start, now);
                pair.window_ticks = (past.age(start, now) % period as usize) as u8;
                pair.packets = window.count as u32;
                pair.sum = window.sum;
                pair.event_type = window.event_type;
                pair.n = window.data.len() as u8;
                pair.data = std::array::from_fn::<u8, DATA, _>(|i| window.data.get(i).copied().unwrap_or(0));
            }
            if options::filters_duplicates(monitor) {
                let kept = past.kept_packet(start, now);
                pair.event_type = kept.as_ref().map_or(0xFF, |(event_type, _)| *event_type);
                let data = kept.map_or(Vec::new(), |(_, data)| data);
                pair.n = data.len() as u8;
                pair.data[..data.len()].copy_from_slice(&data);
            }
            state.pairs[place] = pair;
            state.pair_count += 1;
        }
        // The index: for each pair whose device is not listed yet, all handles that watch it.
        for pair in state.pairs().to_vec() {
            let count = state.index_count as usize;
            if state.index[..count].iter().all(|entry| entry.device != pair.device) {
                let mask = self.watching(&pair.device).iter().fold(0, |mask, handle| mask | 1 << handle);
                state.index[count] = Entry { device: pair.device, mask };
                state.index_count += 1;
            }
        }
        state
    }
}

/// "One report: the latest of them, with RSSI the greatest whole number not above sum / count."
fn report(device: &Device, window: &Window) -> Vec<u8> {
    let not_above = |mean: &i64| mean * window.count as i64 <= window.sum;
    let mean = (-127..=20).rev().find(not_above).expect("every RSSI is at least -127");
    event::report(window.event_type, device, &window.data, mean as i8)
}
