//! Monitors of version 2 (document 02, T-13): their commands, at and past each edge.

use super::{conditions, Generator};
use crate::options;
use crate::random::Random;
use crate::state::{Device, Monitor};

/// What version 2 adds to a monitor, with its condition: all as 0x0F accepts it.
pub fn added(random: &mut Random, known: &[Device], monitor: &mut Monitor) -> (u8, Vec<u8>) {
    let reserved = random.pick(&[0, 0, 0, 0x40, 0x80, 0xC0]);
    monitor.options = reserved
        | random.pick(&[
            0x01, 0x01, 0x02, 0x02, 0x03, 0x04, 0x08, 0x10, 0x1C, 0x20, 0x20, 0x20, 0x21, 0x22, 0x30, 0x3F,
        ]);
    monitor.reports =
        random.pick(&[0x00, 0x02, 0x02, 0x03, 0x03, 0x06, 0x07, 0x08, 0x09, 0x0A, 0x0B, 0x04, 0xF2]);
    if monitor.reports & options::DUPLICATES != 0 && random.percent(70) {
        monitor.sampling = 0;
    }
    if monitor.sampling != 0 {
        monitor.reports &= !options::DUPLICATES;
    }
    monitor.peer = random.pick(known);
    monitor.irk = conditions::key(random);
    if monitor.irk == [0; 16] && monitor.options & 0x0A != 0 {
        monitor.irk[random.below(16)] = 1;
    }
    loop {
        let (kind, condition) = match random.percent(60) {
            true => conditions::flags(),
            false => conditions::well_formed(random, known),
        };
        if monitor.options & 0x0F == 0 || kind < 3 {
            return (kind, condition);
        }
    }
}

/// The parameters of a 0x0F command.
pub fn parameters(m: &Monitor, condition: &[u8]) -> Vec<u8> {
    let mut octets = vec![0x0F, m.high as u8, m.low as u8, m.interval, m.sampling, m.options, m.reports];
    octets.extend(m.peer.address);
    octets.push(m.peer.kind);
    octets.extend(m.irk);
    octets.push(m.kind);
    octets.extend(condition);
    octets
}

impl Generator {
    /// The parameters of a 0x03 command as a 0x0F command.
    pub(super) fn as_second(&mut self, first: &[u8]) -> Vec<u8> {
        let mut monitor = Monitor {
            high: first[1] as i8,
            low: first[2] as i8,
            interval: first[3],
            sampling: first[4],
            ..Monitor::NONE
        };
        let (kind, condition) = added(&mut self.random, &self.devices, &mut monitor);
        monitor.kind = kind;
        parameters(&monitor, &condition)
    }

    /// A 0x0F command at or past one edge.
    pub(super) fn second_edge(&mut self) {
        let first = self.valid_monitor();
        let mut octets = match first[0] {
            0x03 => self.as_second(&first),
            _ => first,
        };
        let random = &mut self.random;
        match random.below(20) {
            0 => octets.truncate(random.pick(&[1, 6, 30])),
            1 => octets.truncate(31),
            2 => octets[5] = random.pick(&[0x00, 0x40, 0x80, 0xC0]),
            3 => octets[5] &= 0xC0,
            4 => {
                octets[5] |= random.pick(&[0x02, 0x08, 0x0A]);
                octets[14..30].fill(0);
            }
            5 => {
                octets[5] = random.pick(&[0x20, 0x21, 0x04, 0x10]);
                octets[14..30].fill(0);
            }
            6 => octets = [&octets[..30], &[3], &conditions::key(random)[..]].concat(),
            7 => octets = [&octets[..30], &[4, 1, 1, 2, 3, 4, 5, 6]].concat(),
            8 => {
                octets[5] = random.pick(&[0x01, 0x02, 0x04, 0x08, 0x2F]);
                octets[14] |= 1;
                octets = [&octets[..30], &[3], &conditions::key(random)[..]].concat();
            }
            9 => {
                octets[5] = random.pick(&[0x10, 0x20, 0x30, 0xF0]);
                octets = [&octets[..30], &[random.pick(&[4, 4, 5]), 1, 1, 2, 3, 4, 5, 6]].concat();
            }
            10 => {
                octets[4] = random.pick(&[1, 0xFE, 0xFF]);
                octets[6] |= 1;
            }
            11 => {
                octets[4] = 0;
                octets[6] |= 1;
            }
            12 => octets[13] = random.pick(&[2, 0x80, 255]),
            13 => octets[30] = random.pick(&[0, 5, 255]),
            14 => octets[1] = random.pick(&[21, 128]),
            15 => octets[3] = random.pick(&[0, 61]),
            16 => {
                let (kind, condition) = conditions::malformed(random);
                octets = [&octets[..30], &[kind], &condition].concat();
                octets.truncate(255);
            }
            17 => {
                octets[5] = 0x20;
                let length = random.pick(&[64, 65, 100, 224]);
                octets = [&octets[..30], &[1], &conditions::of_length(random, length)[..]].concat();
            }
            _ => (octets[5], octets[6]) = (octets[5] | 0x20, random.octet() & 0xFE),
        }
        self.command(&octets);
    }
}
