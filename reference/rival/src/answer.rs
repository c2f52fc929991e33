//! The events of an answer, written into the lent output.

use crate::frame::Device;

pub struct Answer<'a> {
    out: &'a mut [u8],
    wrote: usize,
}

impl<'a> Answer<'a> {
    pub fn new(out: &'a mut [u8]) -> Answer<'a> {
        Answer { out, wrote: 0 }
    }

    pub fn wrote(&self) -> usize {
        self.wrote
    }

    fn put(&mut self, octets: &[u8]) {
        self.out[self.wrote..][..octets.len()].copy_from_slice(octets);
        self.wrote += octets.len();
    }

    /// Command Complete with these return parameters, in two pieces.
    pub fn complete(&mut self, opcode: u16, returns: &[u8], more: &[u8]) {
        let [low, high] = opcode.to_le_bytes();
        self.put(&[0x0E, 3 + (returns.len() + more.len()) as u8, 0x01, low, high]);
        self.put(returns);
        self.put(more);
    }

    /// A start or stop event.
    pub fn watched(&mut self, prefix: &[u8], device: Device, handle: u8, start: bool) {
        let [kind, a, b, c, d, e, f, _] = device.octets();
        self.put(&[0xFF, 10 + prefix.len() as u8]);
        self.put(prefix);
        self.put(&[0x02, kind, a, b, c, d, e, f, handle, u8::from(start)]);
    }

    /// An advertising report.
    pub fn report(&mut self, event_type: u8, device: Device, data: &[u8], rssi: i8) {
        let [kind, a, b, c, d, e, f, _] = device.octets();
        let length = data.len() as u8;
        self.put(&[0x3E, 12 + length, 0x02, 0x01, event_type, kind, a, b, c, d, e, f, length]);
        self.put(data);
        self.put(&[rssi as u8]);
    }
}
