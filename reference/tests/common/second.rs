//! Commands of version 2 (document 02, T-13), for tests written by hand.

use super::Host;
use reference::generate::frames;
use reference::state::Device;

/// A pattern for AD type 1 (flags), data that has it, and a key.
pub const FLAGS: [u8; 5] = [1, 3, 0x01, 0, 0x06];
pub const DATA: [u8; 3] = [2, 1, 6];
pub const KEY: [u8; 16] = [9; 16];

/// The parameters of a 0x0F command, thresholds -60 and -80, interval 1.
pub struct Second {
    pub sampling: u8,
    pub options: u8,
    pub reports: u8,
    pub peer: [u8; 6],
    pub peer_type: u8,
    pub irk: [u8; 16],
    pub kind: u8,
    pub condition: Vec<u8>,
}

/// Any device, legacy reports, sampling 0: as version 1.
pub fn plain() -> Second {
    Second {
        sampling: 0,
        options: 0x20,
        reports: 0x02,
        peer: [0; 6],
        peer_type: 0,
        irk: [0; 16],
        kind: 1,
        condition: FLAGS.to_vec(),
    }
}

pub fn parameters(s: &Second) -> Vec<u8> {
    let head = [0x0F, 0xC4, 0xB0, 1, s.sampling, s.options, s.reports];
    [&head[..], &s.peer, &[s.peer_type], &s.irk, &[s.kind], &s.condition].concat()
}

pub fn add(host: &mut Host, s: Second) -> Vec<u8> {
    host.command(&parameters(&s))
}

/// A packet of an event type.
pub fn given(host: &mut Host, event_type: u8, device: &Device, data: &[u8], rssi: i8) -> Vec<u8> {
    let mut frame = vec![2];
    frame.extend(host.next.to_le_bytes());
    frame.extend(frames::packet(event_type, device, data, rssi));
    host.next += 1;
    host.give(&frame).unwrap()
}
