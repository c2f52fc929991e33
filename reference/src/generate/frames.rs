//! The octets of frames, and commands: all of them, at and past each edge.

use super::{conditions, Generator, Theme};
use crate::limits::{ANSWER, MONITORS};
use crate::lines;
use crate::script::Call;
use crate::state::Device;

const COMMAND: u8 = 0x01;
pub(super) const PACKET: u8 = 0x02;
const TICK: u8 = 0x03;
pub(super) const SCANNED: u8 = 0x04;

/// Kind, number, payload.
pub fn frame(kind: u8, number: u32, payload: &[u8]) -> Vec<u8> {
    let mut octets = vec![kind];
    octets.extend(number.to_le_bytes());
    octets.extend(payload);
    octets
}

/// The payload of a command.
pub fn command(opcode: u16, parameters: &[u8]) -> Vec<u8> {
    let mut octets = opcode.to_le_bytes().to_vec();
    octets.push(parameters.len() as u8);
    octets.extend(parameters);
    octets
}

/// The payload of a packet.
pub fn packet(event_type: u8, device: &Device, data: &[u8], rssi: i8) -> Vec<u8> {
    let mut octets = vec![event_type, device.kind];
    octets.extend(device.address);
    octets.push(data.len() as u8);
    octets.extend(data);
    octets.push(rssi as u8);
    octets
}

/// The payload of a packet of kind 04.
pub fn scanned(event_type: u8, device: &Device, data: &[u8], scan: &[u8], rssi: i8) -> Vec<u8> {
    let mut octets = packet(event_type, device, data, rssi);
    octets.pop();
    octets.push(scan.len() as u8);
    octets.extend(scan);
    octets.push(rssi as u8);
    octets
}

/// The parameters of a 0x03 command.
pub fn monitor(high: i8, low: i8, interval: u8, sampling: u8, kind: u8, condition: &[u8]) -> Vec<u8> {
    let mut octets = vec![0x03, high as u8, low as u8, interval, sampling, kind];
    octets.extend(condition);
    octets
}

impl Generator {
    /// The number of the frame that would be executed next. After the last number there is none: 0 is seen.
    pub(super) fn next_number(&self) -> u32 {
        self.state.position.wrapping_add(1)
    }

    /// Give a frame as octets or as its line.
    pub(super) fn give(&mut self, octets: Vec<u8>) {
        let lent = if self.random.percent(2) { ANSWER + self.random.below(200) } else { ANSWER };
        self.give_lending(octets, lent);
    }

    pub(super) fn give_lending(&mut self, octets: Vec<u8>, lent: usize) {
        let call = match self.random.below(2) {
            0 => Call::Octets { octets, lent },
            _ => Call::Line { text: lines::write(&octets), lent },
        };
        self.make_call(call);
    }

    pub(super) fn command(&mut self, parameters: &[u8]) {
        let octets = frame(COMMAND, self.next_number(), &command(self.state.opcode, parameters));
        self.give(octets);
    }

    pub(super) fn tick(&mut self) {
        let octets = frame(TICK, self.next_number(), &[]);
        self.give(octets);
    }

    /// A payload of a frame that would be executed.
    pub(super) fn any_payload(&mut self) -> (u8, Vec<u8>) {
        match self.random.below(4) {
            0 => (COMMAND, command(self.state.opcode, &self.valid_command())),
            1 => (TICK, Vec::new()),
            _ => self.packet_payload(),
        }
    }

    fn valid_command(&mut self) -> Vec<u8> {
        match self.random.below(4) {
            0 => vec![0x00],
            1 => vec![0x04, self.random.below(MONITORS) as u8],
            2 => vec![0x05, self.random.below(2) as u8],
            _ => self.valid_monitor(),
        }
    }

    /// High and low, at their edges and between.
    fn thresholds(&mut self) -> (i8, i8) {
        let (high, low) = self.random.pick(&[
            (-60, -80),
            (-60, -80),
            (-60, -61),
            (0, -1),
            (1, 0),
            (20, 19),
            (-126, -127),
            (20, -127),
            (-30, -90),
            (-60, -60),
            (-60, -60),
            (0, 0),
            (20, 20),
            (-127, -127),
        ]);
        if self.random.percent(90) {
            return (high, low);
        }
        let low = self.random.between(-127, 20);
        (self.random.between(low, 20) as i8, low as i8)
    }

    pub(super) fn valid_monitor(&mut self) -> Vec<u8> {
        let (high, low) = self.thresholds();
        let interval = match self.theme {
            Theme::Second => self.random.pick(&[1, 2, 3, 3, 60]),
            Theme::LongTicks => self.random.pick(&[1, 2, 3, 30, 60]),
            _ => self.random.pick(&[1, 1, 1, 2, 3, 60]),
        };
        let sampling = match self.theme {
            Theme::Second => self.random.pick(&[0, 0, 0, 1, 3, 0xFF]),
            Theme::Windows => self.random.pick(&[1, 2, 3, 5, 10, 0xFE]),
            _ => self.random.pick(&[0, 0, 1, 2, 5, 9, 10, 11, 0xFE, 0xFF, 0xFF]),
        };
        let (kind, condition) = if matches!(self.theme, Theme::Windows | Theme::LongTicks | Theme::Limits) {
            match self.random.below(4) {
                0 => conditions::well_formed(&mut self.random, &self.devices),
                _ => conditions::flags(),
            }
        } else {
            conditions::well_formed(&mut self.random, &self.devices)
        };
        let first = monitor(high, low, interval, sampling, kind, &condition);
        let share = if self.theme == Theme::Second { 90 } else { 30 };
        match self.random.percent(share) {
            true => self.as_second(&first),
            false => first,
        }
    }

    pub(super) fn add(&mut self) {
        let parameters = self.valid_monitor();
        self.command(&parameters);
    }

    /// A monitor that is watched for 600 ticks.
    pub(super) fn add_slow(&mut self) {
        let interval = self.random.pick(&[1, 59, 60, 60]);
        let sampling = self.random.pick(&[0, 1, 0xFE, 0xFF]);
        let (kind, condition) = conditions::flags();
        self.command(&monitor(-60, -80, interval, sampling, kind, &condition));
        let device = self.random.pick(&self.devices);
        self.give_packet(&device, &[2, 1, 6], -60);
    }

    /// A 0x03 command at or past one edge.
    pub(super) fn add_edge(&mut self) {
        if self.random.percent(40) {
            return self.second_edge();
        }
        let (high, low) = self.thresholds();
        let (kind, condition) = conditions::well_formed(&mut self.random, &self.devices);
        let parameters = match self.random.below(24) {
            0 => monitor(high, low, 1, 0, kind, &condition)[..1 + self.random.below(5)].to_vec(),
            1 => monitor(20, 19, 1, 0, kind, &condition),
            2 => monitor(21, low, 1, 0, kind, &condition),
            3 => monitor(20, 20, 1, 0, kind, &condition),
            4 => monitor(21, 20, 1, 0, kind, &condition),
            5 => monitor(-126, -127, 1, 0, kind, &condition),
            6 => monitor(high, -128, 1, 0, kind, &condition),
            7 => monitor(127, low, 1, 0, kind, &condition),
            8 => monitor(high, high, 1, 0, kind, &condition),
            9 => monitor(low, high, 1, 0, kind, &condition),
            22 => monitor(low.max(-126) - 1, low.max(-126), 1, 0, kind, &condition),
            23 => monitor(-127, -127, self.random.pick(&[1, 60]), 0, kind, &condition),
            10 => monitor(high, low, self.random.pick(&[0, 61, 255]), 0, kind, &condition),
            11 => monitor(high, low, self.random.pick(&[1, 60]), 0, kind, &condition),
            12 => monitor(high, low, 1, 0, self.random.pick(&[0, 5, 255]), &condition),
            13 => monitor(high, low, 1, 0, 3, &conditions::key(&mut self.random)),
            14 => {
                let length = self.random.pick(&[0, 15, 17, 65, 249]);
                monitor(high, low, 1, 0, 3, &self.random.octets(length))
            }
            15 => monitor(high, low, 1, 0, 1, &conditions::longest(&mut self.random)),
            16 => {
                let length = self.random.pick(&[65, 66, 100, 249]);
                monitor(high, low, 1, 0, 1, &conditions::of_length(&mut self.random, length))
            }
            17 => monitor(low, high, 0, 0, 3, &[]),
            18 => monitor(high, low, 61, 0, 3, &[]),
            19 => monitor(high, low, self.random.pick(&[1, 60]), self.random.octet(), kind, &condition),
            _ => {
                let (kind, condition) = conditions::malformed(&mut self.random);
                monitor(high, low, 1, 0, kind, &condition)
            }
        };
        self.command(&parameters);
    }

    pub(super) fn cancel(&mut self) {
        let live: Vec<u8> = self.state.monitors().iter().map(|m| m.handle).collect();
        let handle = match live.len() {
            0 => self.random.below(17) as u8,
            _ if self.random.percent(85) => self.random.pick(&live),
            _ => self.random.pick(&[0, 1, 15, 16, 31, 32, 255]),
        };
        self.command(&[0x04, handle]);
    }

    pub(super) fn filter(&mut self) {
        let enable = match self.random.below(10) {
            0..=6 => 1 - self.state.filter.min(1),
            7..=8 => self.state.filter,
            _ => self.random.pick(&[2, 255]),
        };
        self.command(&[0x05, enable]);
    }

    /// Reading the features, other sub-opcodes, and wrong lengths.
    pub(super) fn other_command(&mut self) {
        let parameters = match self.random.below(9) {
            0..=2 => vec![0x00],
            3 => vec![0x00, 0x00],
            4 => self.random.pick(&[&[0x04][..], &[0x04, 0, 0]]).to_vec(),
            5 => self.random.pick(&[&[0x05][..], &[0x05, 1, 0], &[0x05, 0, 0]]).to_vec(),
            6 => vec![self.random.pick(&[0x01, 0x02, 0x06, 0x0E, 0x10, 0xFF])],
            _ => {
                let length = self.random.pick(&[1, 2, 254]);
                let mut octets = vec![self.random.pick(&[0x00, 0x01, 0x04, 0x05, 0x06, 0x0E])];
                octets.extend(self.random.octets(length));
                octets
            }
        };
        self.command(&parameters);
    }
}
