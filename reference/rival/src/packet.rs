//! Packets: pairs under watch take them, other pairs start.

use crate::advert::Sections;
use crate::answer::Answer;
use crate::engine::Engine;
use crate::frame::Packet;
use crate::pair::Pair;
use crate::{MONITORS, PAIRS};

/// The event type of a scan response's report.
const SCAN_RESPONSE: u8 = 4;

/// The place of a pair that is not held.
const NOWHERE: u8 = 0xFF;

/// The handles of a mask, rising.
fn handles(mut mask: u16) -> impl Iterator<Item = usize> {
    std::iter::from_fn(move || {
        let handle = mask.trailing_zeros() as usize;
        mask &= mask.wrapping_sub(1);
        (handle < MONITORS).then_some(handle)
    })
}

impl Engine {
    pub(crate) fn packet(&mut self, packet: &Packet, answer: &mut Answer) {
        let places = self.places(packet);
        let asked = self.asked(packet, &places);
        let mut reason = !self.filter;
        if asked != 0 {
            let sections = Sections::of(packet);
            let mut starting = 0;
            for handle in handles(asked) {
                let Some(monitor) = &self.monitors[handle] else { continue };
                if !monitor.matches(packet, &sections) {
                    continue;
                }
                match places[handle] {
                    NOWHERE => starting |= 1 << handle,
                    place => reason |= self.pairs[usize::from(place)].take(monitor, packet, self.now),
                }
            }
            for handle in handles(starting) {
                let Some(told) = self.start(handle, packet, answer) else { break };
                reason |= told;
            }
        }
        if reason {
            answer.report(packet.event_type, packet.device, packet.data, packet.rssi);
            if let Some(scan) = packet.scan {
                answer.report(SCAN_RESPONSE, packet.device, scan, packet.rssi);
            }
        }
    }

    /// The places of the device's pairs, by handle.
    fn places(&self, packet: &Packet) -> [u8; MONITORS] {
        let mut places = [NOWHERE; MONITORS];
        for (place, pair) in self.pairs[..self.held].iter().enumerate() {
            if pair.device == packet.device {
                places[usize::from(pair.handle)] = place as u8;
            }
        }
        places
    }

    /// The monitors for which a match would matter: those that watch the device, and those that it might start.
    fn asked(&self, packet: &Packet, places: &[u8; MONITORS]) -> u16 {
        let mut mask = 0;
        for (handle, monitor) in self.monitors.iter().enumerate() {
            if let Some(monitor) = monitor {
                let matters = packet.rssi >= monitor.high || places[handle] != NOWHERE;
                mask |= u16::from(matters) << handle;
            }
        }
        mask
    }

    /// Starts a pair, in the place of the weakest where the table is full; whether that is a reason for a report. None where
    /// there is no room, nor will be for this packet.
    fn start(&mut self, handle: usize, packet: &Packet, answer: &mut Answer) -> Option<bool> {
        if self.held == PAIRS {
            let least = self.pairs.iter().map(|pair| pair.rssi).min()?;
            if packet.rssi <= least {
                return None;
            }
            let weakest = self.pairs.iter().position(|pair| pair.rssi == least)?;
            let Pair { device, handle, .. } = self.pairs[weakest];
            answer.watched(self.prefix(), device, handle, false);
            self.pairs.copy_within(weakest + 1.., weakest);
            self.held -= 1;
        }
        let monitor = self.monitors[handle].as_ref()?;
        let pair = Pair::start(handle as u8, monitor, packet, self.now);
        self.due = self.due.min(pair.due());
        self.pairs[self.held] = pair;
        self.held += 1;
        answer.watched(self.prefix(), packet.device, handle as u8, true);
        Some(monitor.reports(packet.event_type))
    }
}
