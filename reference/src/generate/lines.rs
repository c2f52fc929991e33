//! What is refused: bad lines, bad payloads, other opcodes, seen and gap frames, short outputs.

use super::frames::{command, frame, packet, scanned, SCANNED};
use super::Generator;
use crate::limits::{ANSWER, IMAGE, LINE};
use crate::lines;
use crate::random::Random;
use crate::script::Call;
use crate::state::Device;

/// Spoil a line so that it is none.
pub fn spoil(random: &mut Random, line: &[u8]) -> Vec<u8> {
    let mut text = line.to_vec();
    let place = random.below(text.len());
    match random.below(12) {
        0 => text.make_ascii_lowercase(),
        1 => text.truncate(text.len() - 1),
        2 => text.insert(text.len() - 1, b'\r'),
        3 => text.insert(text.len() - 1, b'0'),
        4 => text.insert(place, b' '),
        5 => text.insert(place, b'\n'),
        6 => text.push(b'\n'),
        7 => text = b"\n".to_vec(),
        8 => text.clear(),
        9 => text = text[1..].to_vec(),
        10 => text[place / 2] = random.pick(b"/:@GgfaXx\0\xFF"),
        _ => text.extend_from_slice(line),
    }
    text
}

impl Generator {
    /// A frame that would be executed.
    pub(super) fn any_frame(&mut self) -> Vec<u8> {
        let (kind, payload) = self.any_payload();
        frame(kind, self.next_number(), &payload)
    }

    /// Not a line: spoilt, too short, too long, another kind; and the longest line there is.
    pub(super) fn bad_line(&mut self) {
        let number = self.next_number();
        match self.random.below(8) {
            0..=3 => {
                let line = lines::write(&self.any_frame());
                let text = spoil(&mut self.random, &line);
                self.make_call(Call::Line { text, lent: ANSWER });
            }
            4 => {
                let length = self.random.below(5);
                let octets = frame(3, number, &[])[..length].to_vec();
                self.give(octets);
            }
            5 => {
                let parameters = self.random.octets(255);
                let mut octets = frame(1, number, &command(self.state.opcode, &parameters));
                let seen = self.random.percent(30);
                if seen {
                    octets[1..5].fill(0);
                }
                octets.resize(263 + self.random.below(3), 0);
                self.give(octets);
            }
            _ => {
                let (_, payload) = self.any_payload();
                let kind = self.random.pick(&[0x00, 0x05, 0x05, 0x84, 0xA0, 0xFF]);
                let number = if self.random.percent(40) { self.state.position } else { number };
                let octets = frame(kind, number, &payload);
                self.give(octets);
            }
        }
    }

    /// Not of its kind's exact form.
    pub(super) fn bad_payload(&mut self) {
        let device = self.random.pick(&self.devices);
        let good = packet(0, &device, &[2, 1, 6], -60);
        let spoilt = |place: usize, octet: u8| {
            let mut payload = good.clone();
            payload[place] = octet;
            payload
        };
        let opcode = self.state.opcode;
        if self.random.percent(35) {
            return self.bad_scanned(&device);
        }
        let (kind, payload) = match self.random.below(16) {
            0 => (2, spoilt(0, self.random.pick(&[4, 255]))),
            1 => (2, spoilt(1, self.random.pick(&[2, 255]))),
            2 => (2, spoilt(8, self.random.pick(&[2, 4, 32, 255]))),
            3 => (2, spoilt(good.len() - 1, self.random.pick(&[21, 127, 128]))),
            4 => (2, spoilt(good.len() - 1, 127)),
            5 => (2, good[..self.random.below(good.len())].to_vec()),
            6 => (2, [&good[..], &[0]].concat()),
            7 => (2, packet(0, &device, &self.random.octets(32), -60)),
            8 => (3, self.random.octets(1)),
            9 => (3, good),
            10 => (1, command(opcode, &[])),
            11 => (1, command(0x0C03, &[])),
            12 => (1, command(opcode, &[0x05, 1])[..self.random.below(5)].to_vec()),
            13 => (1, [&command(opcode, &[0x05, 1])[..], &[0]].concat()),
            14 => (1, [&0x0C03u16.to_le_bytes()[..], &[2, 5]].concat()),
            _ => (1, [&opcode.to_le_bytes()[..], &[0, 5]].concat()),
        };
        let octets = frame(kind, self.next_number(), &payload);
        self.give(octets);
    }

    /// A packet of kind 04 that is not of its exact form, or is at an edge of it.
    fn bad_scanned(&mut self, device: &Device) {
        let (data, scan) = ([2, 1, 6], [3, 9, 65, 66]);
        let good = scanned(0, device, &data, &scan, -60);
        let spoilt = |place: usize, octet: u8| {
            let mut payload = good.clone();
            payload[place] = octet;
            payload
        };
        let random = &mut self.random;
        let payload = match random.below(13) {
            0..=1 => spoilt(0, random.pick(&[1, 3])),
            2 => spoilt(0, random.pick(&[4, 255])),
            3 => spoilt(1, random.pick(&[2, 255])),
            4 => spoilt(8, random.pick(&[2, 4, 32, 255])),
            5 => spoilt(12, random.pick(&[3, 5, 32, 255])),
            6 => spoilt(good.len() - 1, random.pick(&[21, 127, 128])),
            7 => good[..random.below(good.len())].to_vec(),
            8 => [&good[..], &[0]].concat(),
            9 => scanned(2, device, &random.octets(32), &scan, -60),
            10 => scanned(2, device, &data, &random.octets(32), -60),
            11 => scanned(2, device, &random.octets(31), &random.octets(31), -60),
            _ => packet(0, device, &data, -60),
        };
        let octets = frame(SCANNED, self.next_number(), &payload);
        self.give(octets);
    }

    pub(super) fn other_opcode(&mut self) {
        let own = self.state.opcode;
        let opcode = self.random.pick(&[0x0C03, own ^ 1, own ^ 0x100, own.swap_bytes()]);
        let octets = frame(1, self.next_number(), &command(opcode, &[0x05, 1]));
        self.give(octets);
    }

    /// A number at most the position: a frame executed before, or any payload, good or bad.
    pub(super) fn seen(&mut self) {
        if !self.executed.is_empty() && self.random.percent(60) {
            let back = self.random.below(self.executed.len().min(12));
            let octets = self.executed[self.executed.len() - 1 - back].clone();
            return self.give(octets);
        }
        let position = self.state.position;
        let number = self.random.pick(&[0, position, position / 2, position.saturating_sub(1)]);
        let (kind, mut payload) = self.any_payload();
        if self.random.percent(30) {
            payload.push(0);
        }
        self.give(frame(kind, number, &payload));
    }

    /// A number above position + 1; sometimes with a bad payload.
    pub(super) fn gap(&mut self) {
        let position = self.state.position;
        let number = self.random.pick(&[2, 2, 2, 3, 256, 65536]);
        let number = if self.random.percent(10) { u32::MAX } else { position.saturating_add(number) };
        let (kind, mut payload) = self.any_payload();
        if self.random.percent(20) {
            payload.push(0);
        }
        self.give(frame(kind, number, &payload));
    }

    /// A lent output that is too short, for a frame that would be executed or not.
    pub(super) fn short_output(&mut self) {
        let lent = self.random.pick(&[0, 1, 100, ANSWER - 1, ANSWER - 1, ANSWER - 1]);
        let mut octets = self.any_frame();
        match self.random.below(5) {
            0 => octets[0] = 0,
            1 => octets[1..5].fill(0),
            _ => (),
        }
        self.give_lending(octets, lent);
    }

    pub(super) fn save(&mut self) {
        let lent = self.random.pick(&[IMAGE, IMAGE, IMAGE, IMAGE + 30, IMAGE - 1, 0]);
        self.make_call(Call::Save { lent });
    }

    pub(super) fn write_line(&mut self) {
        let lent = self.random.pick(&[LINE, LINE, LINE + 9, LINE - 1, 0]);
        let length = self.random.pick(&[0, 4, 5, 6, 20, 262, 263, 264]);
        let mut octets = self.random.octets(length);
        if let Some(kind) = octets.first_mut() {
            *kind = self.random.pick(&[0, 1, 2, 2, 3, 3, 4, 4, 5]);
        }
        self.make_call(Call::WriteLine { octets, lent });
    }

    /// Start again, also with settings out of range.
    pub(super) fn start_again(&mut self) {
        let opcode = self.random.pick(&[0xFC00, 0xFFFF, 0xFBFF, 0x0000]);
        let length = self.random.pick(&[0, 32, 33, 40]);
        let prefix = self.random.octets(length);
        self.executed.clear();
        self.make_call(Call::Start { opcode, prefix });
    }
}
