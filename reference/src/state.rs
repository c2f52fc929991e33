//! The state as document 01's records: what the lines A0, A1, A3, A4 and A5 hold ("The image"), in places of
//! fixed size, so that every unused octet and place can be asked to be 0 ("Sound").

use crate::edition::Edition;
use crate::index::Entry;
use crate::limits::{CONDITION, DATA, EDITIONS, MONITORS, PAIRS, PREFIX};
use crate::private::Key;

/// A device is an address type and an address (READINGS 17).
#[derive(Clone, Copy, PartialEq, Eq, PartialOrd, Ord, Debug, Default)]
pub struct Device {
    pub kind: u8,
    pub address: [u8; 6],
}

/// An A1 record: a monitor as its 0x03 command gave it. An A5 record: as its 0x0F command did (document 02, T-13), with
/// Monitor_options, Advertisement_report_filtering_options, the peer's address and IRK; these are 0 in an A1 record.
#[derive(Clone, Copy, PartialEq, Eq, Debug)]
pub struct Monitor {
    pub handle: u8,
    pub high: i8,
    pub low: i8,
    pub interval: u8,
    pub sampling: u8,
    pub kind: u8,
    pub length: u8,
    pub octets: [u8; CONDITION],
    pub options: u8,
    pub reports: u8,
    pub peer: Device,
    pub irk: Key,
}

/// An A3 record: a pair under watch. `rssi` is its latest matching RSSI (document 02, T-05). Of a monitor that filters
/// duplicates the last fields keep the last packet that was a reason for a report, event type 0xFF for none (T-13).
#[derive(Clone, Copy, PartialEq, Eq, Debug)]
pub struct Pair {
    pub handle: u8,
    pub device: Device,
    pub quiet: u16,
    pub window_ticks: u8,
    pub packets: u32,
    pub sum: i64,
    pub rssi: i8,
    pub event_type: u8,
    pub n: u8,
    pub data: [u8; DATA],
}

/// The whole state. The counts say how many places are used. `prefix` is that of the edition in force at the position
/// (document 02, T-12).
#[derive(Clone, PartialEq, Eq, Debug)]
pub struct State {
    pub position: u32,
    pub filter: u8,
    pub opcode: u16,
    pub prefix_length: u8,
    pub prefix: [u8; PREFIX],
    pub monitor_count: u8,
    pub monitors: [Monitor; MONITORS],
    pub pair_count: u8,
    pub pairs: [Pair; PAIRS],
    /// Worked out from the pairs; not in the image (document 02, T-02).
    pub index: [Entry; PAIRS],
    pub index_count: u8,
    pub editions: [Edition; EDITIONS],
    pub edition_count: u8,
}

impl Monitor {
    /// An unused place.
    pub const NONE: Monitor = Monitor {
        handle: 0,
        high: 0,
        low: 0,
        interval: 0,
        sampling: 0,
        kind: 0,
        length: 0,
        octets: [0; CONDITION],
        options: 0,
        reports: 0,
        peer: Device { kind: 0, address: [0; 6] },
        irk: [0; 16],
    };

    /// Is it of version 2? Its options are then not 0.
    pub fn second(&self) -> bool {
        self.options != 0
    }

    /// The condition, without the unused octets.
    pub fn condition(&self) -> &[u8] {
        &self.octets[..(self.length as usize).min(CONDITION)]
    }

    /// The sampling period in ticks, for P from 0x01 to 0xFE.
    pub fn period(&self) -> Option<u8> {
        (0x01..=0xFE).contains(&self.sampling).then_some(self.sampling)
    }
}

impl Pair {
    /// An unused place.
    pub const NONE: Pair = Pair {
        handle: 0,
        device: Device { kind: 0, address: [0; 6] },
        quiet: 0,
        window_ticks: 0,
        packets: 0,
        sum: 0,
        rssi: 0,
        event_type: 0,
        n: 0,
        data: [0; DATA],
    };

    /// The event type that says that there is no packet.
    pub const NO_PACKET: u8 = 0xFF;

    /// The data of the latest packet in the window.
    pub fn latest(&self) -> &[u8] {
        &self.data[..(self.n as usize).min(DATA)]
    }
}

impl State {
    /// A fresh state: position 0, filter off, no monitors, one edition of the prefix ("Sizes of the gateway").
    pub fn fresh(opcode: u16, prefix: &[u8]) -> State {
        let first = Edition::of(0, prefix);
        let mut state = State {
            position: 0,
            filter: 0,
            opcode,
            prefix_length: first.length,
            prefix: first.prefix,
            monitor_count: 0,
            monitors: [Monitor::NONE; MONITORS],
            pair_count: 0,
            pairs: [Pair::NONE; PAIRS],
            index: [Entry::default(); PAIRS],
            index_count: 0,
            editions: [Edition::default(); EDITIONS],
            edition_count: 0,
        };
        state.hold_editions(&[first]);
        state
    }

    /// The blank state: fresh, opcode 0xFC00, empty prefix ("Refusal numbers").
    pub fn blank() -> State {
        State::fresh(0xFC00, &[])
    }

    /// The used places; counts past the end are cut, so that an unsound state can be looked at.
    pub fn monitors(&self) -> &[Monitor] {
        &self.monitors[..(self.monitor_count as usize).min(MONITORS)]
    }

    pub fn pairs(&self) -> &[Pair] {
        &self.pairs[..(self.pair_count as usize).min(PAIRS)]
    }

    pub fn prefix(&self) -> &[u8] {
        &self.prefix[..(self.prefix_length as usize).min(PREFIX)]
    }

    /// The live monitor with this handle.
    pub fn monitor(&self, handle: u8) -> Option<&Monitor> {
        self.monitors().iter().find(|m| m.handle == handle)
    }
}
