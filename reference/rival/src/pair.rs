//! A pair under watch. It holds the ticks at which it ends and at which its window closes, so that most ticks change nothing.

use crate::frame::{Device, Packet};
use crate::monitor::Monitor;
use crate::DATA;

/// The event type that says that no packet is kept.
const NO_PACKET: u8 = 0xFF;

/// A tick that does not come: there are fewer than 2 to the 32nd.
const NEVER: u64 = u64::MAX;

#[derive(Clone, Copy)]
pub struct Pair {
    pub device: Device,
    /// The tick that ends the watch if no good packet comes.
    pub ends: u64,
    /// The tick that closes the window; none where there are no windows.
    pub closes: u64,
    sum: i64,
    packets: u32,
    /// The sampling period where there are windows, else 0.
    period: u8,
    pub handle: u8,
    /// RSSI of the latest matching packet.
    pub rssi: i8,
    /// The latest packet of the window, or the one kept for duplicates.
    pub event_type: u8,
    length: u8,
    data: [u8; DATA],
}

impl Pair {
    pub const NONE: Pair = Pair {
        device: Device::NONE,
        ends: NEVER,
        closes: NEVER,
        sum: 0,
        packets: 0,
        period: 0,
        handle: 0,
        rssi: 0,
        event_type: NO_PACKET,
        length: 0,
        data: [0; DATA],
    };

    pub fn start(handle: u8, monitor: &Monitor, packet: &Packet, now: u64) -> Pair {
        let period = monitor.period();
        let mut pair = Pair {
            device: packet.device,
            ends: now + monitor.run,
            closes: if period == 0 { NEVER } else { now + u64::from(period) },
            period,
            handle,
            rssi: packet.rssi,
            ..Pair::NONE
        };
        if monitor.filters_duplicates() && monitor.reports(packet.event_type) {
            pair.keep(packet);
        }
        pair
    }

    /// Takes a matching packet; whether it is a reason for a report.
    pub fn take(&mut self, monitor: &Monitor, packet: &Packet, now: u64) -> bool {
        self.rssi = packet.rssi;
        if packet.rssi > monitor.low {
            self.ends = now + monitor.run;
        }
        if monitor.sampling == 0 {
            return self.is_reason(monitor, packet);
        }
        if self.period != 0 {
            self.packets += 1;
            self.sum += i64::from(packet.rssi);
            self.keep(packet);
        }
        false
    }

    /// Of a monitor that reports every packet: one that it asks for and that is no duplicate. Such a one is kept.
    fn is_reason(&mut self, monitor: &Monitor, packet: &Packet) -> bool {
        if !monitor.reports(packet.event_type) {
            return false;
        }
        if monitor.filters_duplicates() {
            if self.event_type == packet.event_type && self.data() == packet.data {
                return false;
            }
            self.keep(packet);
        }
        true
    }

    fn keep(&mut self, packet: &Packet) {
        self.event_type = packet.event_type;
        self.length = packet.data.len() as u8;
        self.data[..packet.data.len()].copy_from_slice(packet.data);
    }

    pub fn data(&self) -> &[u8] {
        &self.data[..usize::from(self.length)]
    }

    /// The mean of the window, rounded down; none where it is empty.
    pub fn mean(&self) -> Option<i8> {
        (self.packets > 0).then(|| self.sum.div_euclid(i64::from(self.packets)) as i8)
    }

    /// The window that closes is followed by the next.
    pub fn open_window(&mut self) {
        self.closes += u64::from(self.period);
        (self.packets, self.sum) = (0, 0);
    }

    /// The first tick at which something may be due.
    pub fn due(&self) -> u64 {
        self.ends.min(self.closes)
    }
}
