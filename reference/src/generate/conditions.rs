//! Conditions and advertisements that meet or nearly meet them. Octets come from a small alphabet, so
//! that chance alone makes matches and near misses.

use crate::condition::{form, Form};
use crate::limits::{CONDITION, DATA};
use crate::private::Key;
use crate::random::Random;
use crate::state::{Device, Monitor};

const AD_TYPES: [u8; 9] = [0x01, 0x02, 0x03, 0x04, 0x05, 0x06, 0x07, 0x09, 0xFF];

fn few(random: &mut Random, n: usize) -> Vec<u8> {
    (0..n).map(|_| random.pick(&[0x00, 0x01, 0x02, 0x03, 0x06])).collect()
}

/// The pattern that every advertisement with the usual flags meets.
pub fn flags() -> (u8, Vec<u8>) {
    (1, vec![1, 3, 0x01, 0, 0x06])
}

fn pattern(random: &mut Random) -> Vec<u8> {
    let length = random.pick(&[1, 1, 2, 3]);
    let start = random.pick(&[0, 0, 0, 1, 1, 2, 3, 27, 28, 29, 30, 255]);
    let mut octets = vec![length as u8 + 2, random.pick(&AD_TYPES), start];
    octets.extend(few(random, length));
    octets
}

/// A key, least octet first: one of a few, so that chance alone makes matches, or any.
pub fn key(random: &mut Random) -> Key {
    match random.below(5) {
        // The Core Specification's sample.
        0..=1 => {
            let octets = 0xEC0234A357C8AD05341010A60A397D9Bu128;
            octets.to_le_bytes()
        }
        2 => [0; 16],
        3 => std::array::from_fn(|i| i as u8),
        _ => random.octets(16).try_into().unwrap(),
    }
}

/// A well-formed condition of type 1, some patterns.
pub fn patterns(random: &mut Random) -> Vec<u8> {
    let count = random.pick(&[1, 1, 2, 3]);
    let mut octets = vec![count as u8];
    (0..count).for_each(|_| octets.extend(pattern(random)));
    octets
}

/// A well-formed condition of at most 64 octets: its type and octets.
pub fn well_formed(random: &mut Random, devices: &[Device]) -> (u8, Vec<u8>) {
    match random.below(12) {
        10..=11 => (3, key(random).to_vec()),
        0..=2 => flags(),
        3..=5 => (1, patterns(random)),
        6..=7 => {
            let (kind, size) = random.pick(&[(1, 2), (1, 2), (2, 4), (3, 16)]);
            let mut octets = vec![kind];
            octets.extend(few(random, size));
            (2, octets)
        }
        _ => {
            let device = random.pick(devices);
            let mut octets = vec![device.kind];
            octets.extend(device.address);
            (4, octets)
        }
    }
}

/// A well-formed condition of type 1 with this many octets (at least 5).
pub fn of_length(random: &mut Random, length: usize) -> Vec<u8> {
    let mut octets = vec![0];
    while octets.len() < length {
        let left = length - octets.len();
        // A pattern takes 4 octets at least; never leave 1 to 3.
        let size = if left < 8 { left } else { random.between(4, (left as i64 - 4).min(30)) as usize };
        octets.extend([size as u8 - 1, random.pick(&AD_TYPES), 0]);
        octets.extend(few(random, size - 3));
        octets[0] += 1;
    }
    octets
}

/// A malformed condition: its type and octets.
pub fn malformed(random: &mut Random) -> (u8, Vec<u8>) {
    match random.below(17) {
        15 => (3, random.octets(15)),
        16 => {
            let length = random.pick(&[0, 14, 17, 65, 249]);
            (3, random.octets(length))
        }
        0 => (random.pick(&[1, 2, 4]), vec![]),
        1 => (1, vec![0]),
        2 => (1, vec![0, 3, 1, 0, 6]),
        3 => (1, vec![1, 2, 1, 0]),
        4 => (1, vec![2, 3, 1, 0, 6]),
        5 => (1, vec![1, 3, 1, 0, 6, 0]),
        6 => (1, vec![1, 4, 1, 0, 6]),
        7 => {
            let mut octets = of_length(random, 70);
            octets.push(9);
            (1, octets)
        }
        8 => (2, vec![random.pick(&[0, 4, 255]), 1, 2]),
        9 => (2, vec![1, 1]),
        10 => (2, vec![random.pick(&[1, 2, 3]), 1, 2, 3]),
        11 => (2, random.octets(80)),
        12 => (4, vec![2, 1, 2, 3, 4, 5, 6]),
        13 => (4, vec![0, 1, 2, 3, 4, 5]),
        _ => (4, vec![1, 1, 2, 3, 4, 5, 6, 7]),
    }
}

/// One AD structure.
fn section(ad_type: u8, content: &[u8]) -> Vec<u8> {
    let mut octets = vec![content.len() as u8 + 1, ad_type];
    octets.extend(content);
    octets
}

/// An AD structure that meets this monitor's condition, or nearly.
fn aimed(random: &mut Random, monitor: &Monitor) -> Vec<u8> {
    let condition = monitor.condition();
    if form(monitor.kind, condition) != Form::WellFormed {
        // In a state that is not sound.
        return section(0x09, b"vend");
    }
    match monitor.kind {
        1 => {
            let mut rest = &condition[1..];
            for _ in 0..random.below(condition[0] as usize) {
                rest = &rest[1 + rest[0] as usize..];
            }
            let start = (rest[2] as usize).min(DATA);
            let beside = random.pick(&[0, 0, 0, 0, 0, 0, 1, -1]);
            let mut content = few(random, start.saturating_add_signed(beside));
            content.extend(&rest[3..1 + rest[0] as usize]);
            if random.percent(15) {
                content.pop();
            }
            section(rest[1], &content)
        }
        2 => {
            let uuid = &condition[1..];
            let size = uuid.len();
            let ad_type = 2 * condition[0] + random.below(2) as u8;
            let mut content = Vec::new();
            for _ in 0..random.pick(&[0, 0, 1, 2]) {
                content.extend(few(random, size));
            }
            if random.percent(25) {
                content.extend(few(random, 1));
            }
            content.extend(&uuid[..if random.percent(20) { size - 1 } else { size }]);
            if random.percent(30) {
                content.extend(few(random, 1));
            }
            section(ad_type, &content)
        }
        _ => section(0x09, b"vend"),
    }
}

/// The data of an advertisement, at most 31 octets.
pub fn data(random: &mut Random, monitors: &[Monitor]) -> Vec<u8> {
    let mut data = Vec::new();
    if random.percent(10) {
        let length = random.pick(&[0, 0, 1, 31]);
        return few(random, length);
    }
    if random.percent(70) {
        data.extend([0x02, 0x01, 0x06]);
    }
    for _ in 0..random.pick(&[0, 1, 1, 2, 3]) {
        let next = match random.below(12) {
            0..=6 if !monitors.is_empty() => {
                let monitor = random.pick(monitors);
                aimed(random, &monitor)
            }
            7 => vec![0],
            8 => vec![random.pick(&[30, 31, 255]), random.pick(&AD_TYPES), 6],
            9 => vec![1, random.pick(&AD_TYPES)],
            _ => {
                let length = random.below(6);
                section(random.pick(&AD_TYPES), &few(random, length))
            }
        };
        if data.len() + next.len() <= DATA || random.percent(20) {
            data.extend(next);
        }
    }
    if random.percent(4) {
        data.resize(DATA, 0);
    }
    data.truncate(DATA);
    data
}

/// An advertisement and its scan response: each by itself, or one text cut in two, so that structures straddle.
pub fn texts(random: &mut Random, monitors: &[Monitor]) -> (Vec<u8>, Vec<u8>) {
    let scan = match random.below(6) {
        0 => Vec::new(),
        _ => data(random, monitors),
    };
    let first = data(random, monitors);
    match random.below(8) {
        0 => (Vec::new(), scan),
        1 => (vec![2, 1, 6], scan),
        2 if first.len() > 1 => {
            let cut = 1 + random.below(first.len() - 1);
            let rest = [&first[cut..], &scan].concat();
            (first[..cut].to_vec(), rest[..rest.len().min(DATA)].to_vec())
        }
        _ => (first, scan),
    }
}

/// A condition of exactly 64 octets.
pub fn longest(random: &mut Random) -> Vec<u8> {
    of_length(random, CONDITION)
}
