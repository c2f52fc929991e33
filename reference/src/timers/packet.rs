//! Document 01, "Watching, by history", the paragraph "Packet", with stored timers.

use super::report::{keep_packet, Tally};
use super::tick::window_report;
use super::Timers;
use crate::coverage::{hit, Rule};
use crate::event;
use crate::fault::Fault;
use crate::frame::Packet;
use crate::limits::{Seconds, DATA, PAIRS};
use crate::options;
use crate::state::{Device, Monitor, Pair};

impl Timers {
    /// The live monitors whose condition the packet matches, handles ascending.
    fn matching(&self, packet: &Packet) -> Vec<Monitor> {
        let matches = |m: &&Monitor| options::matches(m, packet, self.fault);
        let mut list: Vec<Monitor> = self.state.monitors().iter().filter(matches).copied().collect();
        if self.fault == Fault::HandlesDescending {
            list.reverse();
        }
        list
    }

    /// The place of the pair of this handle and device.
    fn held(&self, handle: u8, device: &Device) -> Option<usize> {
        let same = |d: &Device| match self.fault {
            Fault::DeviceWithoutType => d.address == device.address,
            _ => d == device,
        };
        self.state.pairs().iter().position(|pair| pair.handle == handle && same(&pair.device))
    }

    /// Handles ascending: a start event for each start. Then one report, if there is a reason for it.
    pub(super) fn packet(&mut self, packet: &Packet) -> Vec<u8> {
        let matching = self.matching(packet);
        self.pass_by(packet, &matching);
        let filter_off = self.state.filter == 0;
        let held_before = self.state.pair_count as usize;
        self.done.matching = matching.iter().fold(0, |mask, m| mask | 1 << m.handle);
        self.done.rssi = packet.rssi;
        self.done.each = 1 + packet.scan.is_some() as u64;
        self.done.off = filter_off;
        let mut answer = Vec::new();
        let mut tally = Tally { reasons: filter_off as usize, ..Tally::default() };
        // For a wrong build: what the device's pairs kept before this packet.
        let kept_before: Vec<(u8, i8)> = match self.fault {
            Fault::DuplicateByRssi => {
                let own = self.state.pairs().iter().filter(|p| p.device == packet.device);
                own.map(|p| (p.handle, p.rssi)).collect()
            }
            _ => Vec::new(),
        };
        if self.fault != Fault::KeptAfterwards {
            matching.iter().for_each(|monitor| self.keep(monitor, packet));
        }
        for monitor in &matching {
            if let Some(place) = self.held(monitor.handle, &packet.device) {
                let same_rssi = kept_before.contains(&(monitor.handle, packet.rssi));
                self.keep(monitor, packet);
                self.take(place, monitor, packet);
                let reason = self.reported_under_watch(place, monitor, packet, same_rssi, &mut tally);
                tally.reasons += reason as usize;
                self.done.reasons |= (reason as u16) << monitor.handle;
            } else if self.strong(monitor, packet) {
                let mut stop = Vec::new();
                if !self.has_room(held_before) {
                    let Some(weakest) = self.weakest(packet, &tally) else {
                        tally.no_room += 1;
                        continue;
                    };
                    stop = self.displace(weakest, monitor, packet);
                    tally.displaced += 1;
                }
                self.begin(monitor, packet);
                let mut start = Vec::new();
                if !(filter_off && self.fault == Fault::NoStartWhileOff) {
                    start = self.device_event(&packet.device, monitor.handle, true);
                }
                match self.fault {
                    Fault::StartBeforeStop => answer.extend([start, stop].concat()),
                    _ => answer.extend([stop, start].concat()),
                }
                if self.fault == Fault::SharedStartStops && at_shared(monitor, packet) {
                    answer.extend(self.device_event(&packet.device, monitor.handle, false));
                    self.state.pair_count -= 1;
                    self.state.pairs[self.state.pair_count as usize] = Pair::NONE;
                }
                tally.starts += 1;
                tally.quiet_starts += (monitor.sampling == 0xFF) as usize;
                let reason = self.reported_at_start(monitor, packet);
                tally.reasons += reason as usize;
                self.done.reasons |= (reason as u16) << monitor.handle;
            }
        }
        let own = self.state.pairs().iter().filter(|pair| pair.device == packet.device);
        self.done.own = own.fold(0, |mask, pair| mask | 1 << pair.handle);
        if tally.displaced > 0 && self.fault == Fault::IndexKeepsDisplaced {
            self.index_started(packet);
        } else if tally.starts > 0 {
            self.index_pairs();
        }
        tally.count(filter_off);
        match self.fault {
            Fault::DuplicateForAll if tally.duplicates > 0 => tally.reasons = filter_off as usize,
            Fault::DuplicateOffHidden if tally.duplicates > 0 => tally.reasons -= filter_off as usize,
            _ => (),
        }
        let report = self.reports(packet, tally.reasons > 0);
        match self.fault {
            Fault::ReportPerMonitor => (0..tally.reasons).for_each(|_| answer.extend(&report)),
            Fault::ReportBeforeStarts if tally.reasons > 0 => answer.splice(0..0, report).for_each(drop),
            _ if tally.reasons > 0 => answer.extend(report),
            _ => (),
        }
        answer
    }

    /// Is its RSSI at least high?
    fn strong(&self, monitor: &Monitor, packet: &Packet) -> bool {
        packet.rssi > monitor.high || (packet.rssi == monitor.high && self.fault != Fault::StartAboveHigh)
    }

    /// Are fewer than 64 pairs under watch?
    fn has_room(&self, held_before: usize) -> bool {
        match self.fault {
            Fault::RoomForOneLess => (self.state.pair_count as usize) < PAIRS - 1,
            Fault::RoomOncePerPacket => held_before < PAIRS,
            _ => (self.state.pair_count as usize) < PAIRS,
        }
    }

    /// Each pair keeps its latest matching RSSI (T-05).
    fn keep(&mut self, monitor: &Monitor, packet: &Packet) {
        let Some(place) = self.held(monitor.handle, &packet.device) else { return };
        match self.fault {
            Fault::KeptOfStart => (),
            Fault::KeptOfGood if packet.rssi <= monitor.low => (),
            _ => self.state.pairs[place].rssi = packet.rssi,
        }
    }

    /// With 64 pairs under watch: the place of the one with the smallest kept RSSI, the earliest started if several, if
    /// the packet's is above it (T-05).
    fn weakest(&self, packet: &Packet, tally: &Tally) -> Option<usize> {
        let pairs = self.state.pairs();
        let least = pairs.iter().map(|pair| pair.rssi).min()?;
        let all = || (0..pairs.len()).filter(|place| pairs[*place].rssi == least);
        let found = match self.fault {
            Fault::NoneDisplaced => None,
            Fault::DisplacesOnce if tally.displaced > 0 => None,
            Fault::LatestDisplaced => all().next_back(),
            Fault::AnyDisplaced => Some(0),
            _ => all().next(),
        };
        if packet.rssi == least {
            hit(Rule::StartNoRoomEqual);
        }
        let above = packet.rssi > least || (packet.rssi == least && self.fault == Fault::EqualDisplaces);
        if above && all().count() > 1 {
            hit(Rule::DisplacesEarlier);
        }
        found.filter(|_| above)
    }

    /// Forget a pair, which gets its stop event; its window is lost.
    fn displace(&mut self, place: usize, monitor: &Monitor, packet: &Packet) -> Vec<u8> {
        let mut pairs = self.state.pairs().to_vec();
        let gone = pairs.remove(place);
        let rules = [
            (true, Rule::Displaces),
            (place > 0, Rule::DisplacesNotFirst),
            (gone.packets > 0, Rule::DisplacesWindow),
            (gone.handle == monitor.handle, Rule::DisplacesOwnHandle),
            (gone.device == packet.device, Rule::DisplacesOwnDevice),
        ];
        rules.iter().filter(|(reached, _)| *reached).for_each(|(_, rule)| hit(*rule));
        self.hold_pairs(&pairs);
        self.gap = place;
        let mut stop = self.device_event(&gone.device, gone.handle, false);
        if self.fault == Fault::DisplacedReported && self.state.filter == 1 && gone.packets > 0 {
            stop.splice(0..0, window_report(&gone, self.fault)).for_each(drop);
        }
        if self.fault == Fault::DisplacedSilently {
            stop.clear();
        }
        stop
    }

    /// A matching packet of a pair under watch: a good one begins the run anew; a window takes it.
    fn take(&mut self, place: usize, monitor: &Monitor, packet: &Packet) {
        let fault = self.fault;
        let filter_off = self.state.filter == 0;
        let shared = at_shared(monitor, packet);
        let good = packet.rssi > monitor.low
            || (packet.rssi == monitor.low && fault == Fault::GoodAtLow)
            || (shared && fault == Fault::SharedRestarts);
        hit(if good { Rule::GoodPacket } else { Rule::LowPacket });
        if shared {
            hit(Rule::LowShared);
        }
        let pair = &mut self.state.pairs[place];
        if good || fault == Fault::AnyPacketRestarts {
            pair.quiet = 0;
        }
        if monitor.period().is_none() && !(monitor.sampling == 0xFF && fault == Fault::Period255) {
            return;
        }
        if (fault == Fault::WindowSleepsWhileOff && filter_off)
            || (fault == Fault::WindowHoldsGoodOnly && !good)
        {
            return;
        }
        hit(if filter_off { Rule::WindowTakesOff } else { Rule::WindowTakes });
        if packet.scan.is_some() {
            hit(Rule::WindowTakesScanned);
        }
        if good && fault == Fault::GoodShiftsWindow {
            pair.window_ticks = 0;
        }
        gather(pair, packet, fault);
    }

    /// A start takes its room at once; its packet is in no window, and is good whatever low is (T-01).
    fn begin(&mut self, monitor: &Monitor, packet: &Packet) {
        hit(Rule::Start);
        let mut pair =
            Pair { handle: monitor.handle, device: packet.device, rssi: packet.rssi, ..Pair::NONE };
        if options::filters_duplicates(monitor) {
            pair.event_type = if self.fault == Fault::NoPacketIsEmpty { 0 } else { Pair::NO_PACKET };
            let off = self.fault == Fault::KeptWhileOn && self.state.filter == 0;
            if self.reported_at_start(monitor, packet) && self.fault != Fault::StartNotKept && !off {
                keep_packet(&mut pair, packet);
            }
        }
        if at_shared(monitor, packet) {
            hit(Rule::StartShared);
            if self.fault == Fault::SharedStartOneTick {
                pair.quiet = Seconds(monitor.interval).ticks().0 - 1;
            }
        }
        if self.fault == Fault::StartInWindow && monitor.period().is_some() {
            gather(&mut pair, packet, self.fault);
        }
        let count = self.state.pair_count as usize;
        if count < PAIRS {
            self.state.pairs[count] = pair;
            self.state.pair_count += 1;
        }
        if self.fault == Fault::DisplacedPlaceTaken && self.gap < count {
            self.state.pairs[self.gap..=count.min(PAIRS - 1)].rotate_right(1);
        }
        self.gap = PAIRS;
    }

    pub(super) fn device_event(&self, device: &Device, handle: u8, watched: bool) -> Vec<u8> {
        let prefix = if self.fault == Fault::EventWithoutPrefix { &[] } else { self.state.prefix() };
        if self.state.editions().get(1).is_some_and(|second| second.from <= self.state.position) {
            hit(Rule::EventLater);
        }
        event::device(prefix, device, handle, watched)
    }

    /// A packet of a device under watch that does not match does nothing for that pair (READINGS 17).
    fn pass_by(&mut self, packet: &Packet, matching: &[Monitor]) {
        let count = self.state.pair_count as usize;
        for pair in &mut self.state.pairs[..count] {
            if pair.device == packet.device && matching.iter().all(|m| m.handle != pair.handle) {
                hit(Rule::OtherPacket);
                if self.fault == Fault::OtherPacketRestarts {
                    pair.quiet = 0;
                }
            }
        }
    }
}

/// Is the packet at the value of equal thresholds?
fn at_shared(monitor: &Monitor, packet: &Packet) -> bool {
    monitor.high == monitor.low && packet.rssi == monitor.low
}

/// Put a packet into a pair's window: count, sum, and the latest packet. A window holds no more packets than the
/// position, and a frame is executed only below the last number, so the count fits 4 octets (T-11).
fn gather(pair: &mut Pair, packet: &Packet, fault: Fault) {
    let first = pair.packets == 0;
    pair.packets = match fault {
        Fault::InventedCount => pair.packets.wrapping_add(2),
        Fault::CountWraps | Fault::PacketsNotChecked => pair.packets.wrapping_add(1),
        _ => pair.packets.checked_add(1).expect("a count of 4 octets"),
    };
    pair.sum += packet.rssi as i64;
    if fault == Fault::WindowKeepsFirst && !first {
        return;
    }
    let data = match &packet.scan {
        Some(scan) if fault == Fault::WindowKeepsScan => scan,
        _ => &packet.data,
    };
    pair.event_type = packet.event_type;
    pair.n = data.len() as u8;
    if fault != Fault::LatestPadded {
        pair.data = [0; DATA];
    }
    pair.data[..data.len()].copy_from_slice(data);
}
