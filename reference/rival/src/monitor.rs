//! A monitor as its command gave it, version 1 or 2.

use crate::advert::Sections;
use crate::aes::Cipher;
use crate::command::Status;
use crate::condition::Condition;
use crate::frame::{in_range, Device, Packet};

/// Monitor_options: the peer's address, the peer's IRK, the same two of a target address, any packet.
const PEER: u8 = 0x01;
const PEER_IRK: u8 = 0x02;
const TARGET: u8 = 0x04;
const TARGET_IRK: u8 = 0x08;
const ANY: u8 = 0x20;
const NAMED: u8 = 0x3F;

/// Advertisement_report_filtering_options.
const DUPLICATES: u8 = 0x01;
const LEGACY: u8 = 0x02;
const EXTENDED: u8 = 0x04;
const DIRECTED: u8 = 0x08;
/// The event type of directed packets.
const DIRECTED_EVENT: u8 = 1;

pub struct Monitor {
    pub high: i8,
    pub low: i8,
    pub sampling: u8,
    /// Ticks without a good packet that end a watch.
    pub run: u64,
    condition: Condition,
    options: u8,
    reports: u8,
    peer: Device,
    /// Only where the options ask for it.
    irk: Option<Cipher>,
}

/// The four octets that both versions begin with.
struct Levels {
    high: i8,
    low: i8,
    interval: u8,
    sampling: u8,
}

impl Levels {
    fn read([high, low, interval, sampling]: [u8; 4]) -> Result<Levels, Status> {
        let (high, low) = (high as i8, low as i8);
        let formed = in_range(high) && in_range(low) && low <= high && (1..=60).contains(&interval);
        formed.then_some(Levels { high, low, interval, sampling }).ok_or(Status::Invalid)
    }

    fn monitor(self, condition: Condition) -> Monitor {
        let Levels { high, low, interval, sampling } = self;
        let run = 10 * u64::from(interval);
        let (options, reports, peer) = (ANY, LEGACY | EXTENDED, Device::NONE);
        Monitor { high, low, sampling, run, condition, options, reports, peer, irk: None }
    }
}

impl Monitor {
    /// The parameters behind sub-opcode 03.
    pub fn read(parameters: &[u8]) -> Result<Monitor, Status> {
        let (levels, rest) = parameters.split_first_chunk().ok_or(Status::Invalid)?;
        let levels = Levels::read(*levels)?;
        let (kind, condition) = rest.split_first().ok_or(Status::Invalid)?;
        Ok(levels.monitor(Condition::read(*kind, condition)?))
    }

    /// The parameters behind sub-opcode 0F.
    pub fn read_second(parameters: &[u8]) -> Result<Monitor, Status> {
        let (levels, rest) = parameters.split_first_chunk().ok_or(Status::Invalid)?;
        let levels = Levels::read(*levels)?;
        let (&[options, reports], rest) = rest.split_first_chunk().ok_or(Status::Invalid)?;
        let (address, rest) = rest.split_first_chunk::<6>().ok_or(Status::Invalid)?;
        let (&peer_kind, rest) = rest.split_first().ok_or(Status::Invalid)?;
        let (irk, rest) = rest.split_first_chunk::<16>().ok_or(Status::Invalid)?;
        let (&kind, condition) = rest.split_first().ok_or(Status::Invalid)?;
        let asks = |bits: u8| options & bits != 0;
        let forbidden = !asks(NAMED)
            || peer_kind > 1
            || asks(PEER_IRK | TARGET_IRK) && *irk == [0; 16]
            || asks(PEER | PEER_IRK | TARGET | TARGET_IRK) && kind > 2
            || reports & DUPLICATES != 0 && levels.sampling != 0;
        if forbidden {
            return Err(Status::Invalid);
        }
        let peer = Device::new(peer_kind, *address);
        let irk = asks(PEER_IRK).then(|| Cipher::new(*irk));
        Ok(Monitor { options, reports, peer, irk, ..levels.monitor(Condition::read(kind, condition)?) })
    }

    pub fn matches(&self, packet: &Packet, sections: &Sections) -> bool {
        self.condition.matches(packet.device, sections) && self.fits_options(packet.device)
    }

    /// No packet has a target address, so three of the bits match nothing.
    fn fits_options(&self, device: Device) -> bool {
        self.options & ANY != 0
            || self.options & PEER != 0 && device == self.peer
            || self.irk.as_ref().is_some_and(|irk| irk.resolves(device))
    }

    /// Whether packets of this event type may be reported for this monitor.
    pub fn reports(&self, event_type: u8) -> bool {
        self.reports & LEGACY != 0 || self.reports & DIRECTED != 0 && event_type == DIRECTED_EVENT
    }

    pub fn filters_duplicates(&self) -> bool {
        self.reports & DUPLICATES != 0
    }

    /// The sampling period where there are windows, else 0.
    pub fn period(&self) -> u8 {
        if self.sampling == 0xFF {
            0
        } else {
            self.sampling
        }
    }
}
