//! The octets of answers: Command Complete, the device event and the advertising report.

use crate::state::Device;

/// Document 01, "Commands": 0x0E, length, 0x01, opcode (2), return parameters.
pub fn command_complete(opcode: u16, returns: &[u8]) -> Vec<u8> {
    let mut octets = vec![0x0E, 3 + returns.len() as u8, 0x01];
    octets.extend(opcode.to_le_bytes());
    octets.extend(returns);
    octets
}

/// Document 01, "Watching": 0xFF, length, prefix, 0x02, address type, address, handle, 1 or 0.
pub fn device(prefix: &[u8], device: &Device, handle: u8, watched: bool) -> Vec<u8> {
    let mut octets = vec![0xFF, prefix.len() as u8 + 10];
    octets.extend(prefix);
    octets.extend([0x02, device.kind]);
    octets.extend(device.address);
    octets.extend([handle, watched as u8]);
    octets
}

/// Document 01, "Watching": 0x3E, 12 + n, 0x02, 0x01, event type, address type, address, n, data, RSSI.
pub fn report(event_type: u8, device: &Device, data: &[u8], rssi: i8) -> Vec<u8> {
    let n = data.len() as u8;
    let mut octets = vec![0x3E, 12 + n, 0x02, 0x01, event_type, device.kind];
    octets.extend(device.address);
    octets.push(n);
    octets.extend(data);
    octets.push(rssi as u8);
    octets
}

/// The event type of a scan response's report (Core).
pub const SCAN_RESPONSE: u8 = 4;

/// The events of an answer, one by one: code, length, that many octets.
pub fn split(answer: &[u8]) -> Vec<&[u8]> {
    let mut events = Vec::new();
    let mut rest = answer;
    while rest.len() >= 2 {
        let (event, after) = rest.split_at((2 + rest[1] as usize).min(rest.len()));
        events.push(event);
        rest = after;
    }
    events
}
