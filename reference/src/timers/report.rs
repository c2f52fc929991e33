//! Document 01 and document 02, T-06 and T-13: a packet's reports, the reasons for them, and the packet that a pair keeps
//! for duplicates.

use super::Timers;
use crate::coverage::{hit, Rule};
use crate::event;
use crate::fault::Fault;
use crate::frame::Packet;
use crate::limits::DATA;
use crate::options;
use crate::state::{Monitor, Pair};

impl Timers {
    /// The packet's report; for kind 04 a second one of event type 4 with the scan response follows (T-06).
    pub(super) fn reports(&self, packet: &Packet, wanted: bool) -> Vec<u8> {
        let filter_off = self.state.filter == 0;
        let mut octets = event::report(packet.event_type, &packet.device, &packet.data, packet.rssi);
        let Some(scan) = &packet.scan else { return octets };
        hit(match (wanted, filter_off) {
            (false, _) => Rule::ScanNoReport,
            (_, _) if scan.is_empty() => Rule::ScanReportEmpty,
            (_, true) => Rule::ScanReportOff,
            _ => Rule::ScanReport,
        });
        let missing = match self.fault {
            Fault::ScanReportMissing => true,
            Fault::ScanReportWhileOff => filter_off,
            Fault::EmptyScanNoReport => scan.is_empty(),
            _ => false,
        };
        if !missing {
            let event_type = if self.fault == Fault::ScanReportType0 { 0 } else { event::SCAN_RESPONSE };
            octets.extend(event::report(event_type, &packet.device, scan, packet.rssi));
        }
        octets
    }

    /// A start is a reason for a report, where the monitor asks for one of such packets. It is never a duplicate.
    pub(super) fn reported_at_start(&self, monitor: &Monitor, packet: &Packet) -> bool {
        let fits = options::reported(monitor, packet.event_type, self.fault);
        if !fits && self.state.filter == 1 {
            hit(Rule::StartUnreported);
        }
        match self.fault {
            Fault::NoStartReport if monitor.sampling == 0xFF => false,
            Fault::StartDuplicate if options::filters_duplicates(monitor) => false,
            Fault::ReportedWithoutBit | Fault::StartWithoutBit => true,
            _ => fits,
        }
    }

    /// A matching monitor with sampling 0 and the pair under watch is a reason for a report, where it asks for one of
    /// such packets and this one is no duplicate; it is then kept for the next.
    pub(super) fn reported_under_watch(
        &mut self,
        place: usize,
        monitor: &Monitor,
        packet: &Packet,
        same_rssi: bool,
        tally: &mut Tally,
    ) -> bool {
        let fault = self.fault;
        if monitor.sampling != 0 || (fault == Fault::LowNotReported && packet.rssi <= monitor.low) {
            return false;
        }
        let filter_on = self.state.filter == 1;
        let fits = options::reported(monitor, packet.event_type, fault) || fault == Fault::ReportedWithoutBit;
        let pair = &mut self.state.pairs[place];
        if options::filters_duplicates(monitor) {
            let duplicate = is_duplicate(pair, packet, same_rssi, fault);
            hit(match (fits, duplicate, pair.event_type, filter_on) {
                (false, ..) => Rule::WatchedUnreported,
                (_, true, _, true) => Rule::Duplicate,
                (_, true, _, false) => Rule::DuplicateOff,
                (_, _, Pair::NO_PACKET, _) => Rule::DuplicateFirst,
                _ => Rule::DuplicateNot,
            });
            let reason = fits && !duplicate;
            if (reason || fault == Fault::EveryPacketKept) && (filter_on || fault != Fault::KeptWhileOn) {
                keep_packet(pair, packet);
            }
            tally.duplicates += (fits && duplicate) as usize;
            return reason || (fits && fault == Fault::DuplicateReported);
        }
        hit(match (fits, filter_on) {
            (false, _) => Rule::WatchedUnreported,
            (true, true) => Rule::ReportSampling0,
            _ => return true,
        });
        fits
    }
}

/// What happened at one packet: reasons for a report, starts, and starts that found no room.
#[derive(Default)]
pub(super) struct Tally {
    pub(super) reasons: usize,
    pub(super) starts: usize,
    pub(super) quiet_starts: usize,
    pub(super) no_room: usize,
    pub(super) displaced: usize,
    pub(super) duplicates: usize,
}

impl Tally {
    pub(super) fn count(&self, filter_off: bool) {
        let rules = [
            (self.starts > 1, Rule::StartSeveral),
            (self.no_room > 0, Rule::StartNoRoom),
            (self.no_room > 0 && self.starts > 0, Rule::StartSomeRoom),
            (self.displaced > 1, Rule::DisplacesSeveral),
            (self.duplicates > 0 && self.reasons > filter_off as usize, Rule::DuplicateElsewhere),
            (self.starts > 0 && filter_off, Rule::StartWhileOff),
            (filter_off, Rule::ReportOff),
            (self.starts > 0 && !filter_off, Rule::ReportStart),
            (!filter_off && self.starts > 0 && self.reasons == self.quiet_starts, Rule::ReportStart255),
            (self.reasons == 0, Rule::ReportNone),
        ];
        rules.iter().filter(|(reached, _)| *reached).for_each(|(_, rule)| hit(*rule));
    }
}

/// Has the packet the event type and the advertisement's data of the one that the pair keeps?
fn is_duplicate(pair: &Pair, packet: &Packet, same_rssi: bool, fault: Fault) -> bool {
    let same_type = pair.event_type == packet.event_type;
    let same = pair.event_type != Pair::NO_PACKET && pair.latest() == packet.data;
    match fault {
        Fault::DuplicateAnyType => same,
        Fault::DuplicateByRssi => same && same_type && same_rssi,
        Fault::DuplicateByScan => same && same_type && packet.scan.is_none(),
        _ => same && same_type,
    }
}

/// Keep a packet that was a reason for a report (T-13).
pub(super) fn keep_packet(pair: &mut Pair, packet: &Packet) {
    pair.event_type = packet.event_type;
    pair.n = packet.data.len() as u8;
    pair.data = [0; DATA];
    pair.data[..packet.data.len()].copy_from_slice(&packet.data);
}
