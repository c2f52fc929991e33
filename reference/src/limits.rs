//! Document 01, "Sizes of the gateway": the constants, and the two units of time.

/// Monitors, handles 0 to 15.
pub const MONITORS: usize = 16;
/// Watched pairs of a monitor and a device.
pub const PAIRS: usize = 64;
/// Octets of a condition.
pub const CONDITION: usize = 64;
/// Octets of a packet's data.
pub const DATA: usize = 31;
/// Octets of the event prefix, and its editions (document 02, T-12).
pub const PREFIX: usize = 32;
pub const EDITIONS: usize = 32;
/// Octets of a frame: a line before hexadecimal. The least is kind and number.
pub const FRAME_LEAST: usize = 5;
pub const FRAME_MOST: usize = 263;
/// Octets that must be lent for writing a line, for an answer, for an image.
pub const LINE: usize = 527;
pub const ANSWER: usize = 2880;
pub const IMAGE: usize = 13162;
/// RSSI is signed, -127 to 20.
pub const RSSI_LEAST: i8 = -127;
pub const RSSI_MOST: i8 = 20;
/// The vendor opcode, 0xFC00 to 0xFFFF.
pub const OPCODE_LEAST: u16 = 0xFC00;
/// The low interval in seconds, 0x01 to 0x3C.
pub const INTERVAL_LEAST: u8 = 0x01;
pub const INTERVAL_MOST: u8 = 0x3C;

/// Seconds of the low interval.
#[derive(Clone, Copy, PartialEq, Eq, PartialOrd, Ord, Debug)]
pub struct Seconds(pub u8);

/// Ticks of 100 ms.
#[derive(Clone, Copy, PartialEq, Eq, PartialOrd, Ord, Debug)]
pub struct Ticks(pub u16);

impl Seconds {
    /// 1 second is 10 ticks.
    pub fn ticks(self) -> Ticks {
        Ticks(10 * self.0 as u16)
    }
}

/// Is this RSSI (or threshold) in range?
pub fn rssi_in_range(rssi: i8) -> bool {
    (RSSI_LEAST..=RSSI_MOST).contains(&rssi)
}
