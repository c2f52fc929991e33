//! Document 02, T-13: what version 2 of the monitor command adds, by source document 000's pseudo-code. Version 1 is
//! version 2 with 000's values for missing parameters.

use crate::condition;
use crate::coverage::{hit, Rule};
use crate::fault::Fault;
use crate::frame::Packet;
use crate::private;
use crate::state::Monitor;

/// Monitor_options: AdvA is the peer's address; AdvA resolves by its IRK; the same two for directed packets; any
/// directed packet; any AdvA.
pub const PEER: u8 = 0x01;
pub const PEER_IRK: u8 = 0x02;
pub const DIRECTED_PEER: u8 = 0x04;
pub const DIRECTED_IRK: u8 = 0x08;
pub const DIRECTED: u8 = 0x10;
pub const ANY: u8 = 0x20;
/// Bits 0 to 5; the others are reserved.
const NAMED: u8 = 0x3F;

/// Advertisement_report_filtering_options: duplicates are filtered; reports of legacy, extended and directed packets.
pub const DUPLICATES: u8 = 0x01;
pub const LEGACY: u8 = 0x02;
pub const EXTENDED: u8 = 0x04;
pub const DIRECTED_REPORTS: u8 = 0x08;

/// The event type of a directed packet (Core: ADV_DIRECT_IND).
const DIRECTED_EVENT: u8 = 1;

/// 000, "Parametri mancanti": a version 1 monitor has bit 5 of the options, bits 1 and 2 of the report filter.
fn effective(monitor: &Monitor) -> (u8, u8) {
    match monitor.second() {
        true => (monitor.options, monitor.reports),
        false => (ANY, LEGACY | EXTENDED),
    }
}

/// "Whatever its tables forbid is 0x12": of the parameters that version 2 adds, and of those together with others.
pub fn forbidden(monitor: &Monitor, fault: Fault) -> bool {
    let m = monitor;
    let any = |bits: u8| m.options & bits != 0;
    (!any(NAMED) && fault != Fault::ReservedAlone)
        || (any(PEER_IRK | DIRECTED_IRK) && m.irk == [0; 16] && fault != Fault::ZeroIrkTaken)
        || (any(PEER | PEER_IRK | DIRECTED_PEER | DIRECTED_IRK)
            && [3, 4].contains(&m.kind)
            && fault != Fault::PeerBesideAddress)
        || (m.reports & DUPLICATES != 0 && m.sampling != 0 && fault != Fault::DuplicatesSampled)
        || (m.peer.kind > 1 && fault != Fault::PeerType2)
}

/// MonitorOptionsMatch. Our packets carry no TargetA (H): bits 2, 3 and 4 match nothing.
pub fn matches(monitor: &Monitor, packet: &Packet, fault: Fault) -> bool {
    let condition = condition::matches(monitor.kind, monitor.condition(), packet, fault);
    let (options, _) = effective(monitor);
    let device = &packet.device;
    let same = device.address == monitor.peer.address
        && (device.kind == monitor.peer.kind || fault == Fault::PeerTypeIgnored);
    let own = (options & PEER != 0 && same)
        || (options & PEER_IRK != 0 && private::resolves(&monitor.irk, device, fault));
    let directed = fault == Fault::TargetMatches
        && packet.event_type == DIRECTED_EVENT
        && options & (DIRECTED_PEER | DIRECTED_IRK | DIRECTED) != 0;
    if monitor.second() {
        hit(match (condition, own, options & ANY != 0) {
            (true, true, _) => Rule::OptionsOwn,
            (true, false, true) => Rule::OptionsAny,
            (true, false, false) => Rule::OptionsNot,
            (false, true, _) => Rule::OptionsNoCondition,
            (false, false, _) => Rule::OptionsNone,
        });
    }
    (own && (condition || fault == Fault::OptionsAlone)) || directed || (options & ANY != 0 && condition)
}

/// Is a packet of this event type one of those that the monitor asks reports of? All our packets are legacy ones.
pub fn reported(monitor: &Monitor, event_type: u8, fault: Fault) -> bool {
    let (_, reports) = effective(monitor);
    let directed = event_type == DIRECTED_EVENT && fault != Fault::DirectedNotReported;
    let legacy = reports & LEGACY != 0 || (fault == Fault::ExtendedForLegacy && reports & EXTENDED != 0);
    legacy || (reports & DIRECTED_REPORTS != 0 && directed)
}

/// Does the monitor filter duplicates?
pub fn filters_duplicates(monitor: &Monitor) -> bool {
    let (_, reports) = effective(monitor);
    reports & DUPLICATES != 0
}
