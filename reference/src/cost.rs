//! Document 02, T-08: how many comparisons the match of one pattern condition makes, and vectors of it.

use crate::condition::{patterns, sections, Text};
use crate::fault::Fault;
use crate::generate::conditions;
use crate::lines::hex;
use crate::random::Random;
use crate::state::Monitor;

/// Whether a well-formed condition of type 1 matches an advertisement and its scan response, and the number of
/// comparisons: "patterns in order, each over the AD structures in order, the AD type first, then, if it is equal and
/// the structure long enough, octets up to the first difference; the first match ends all". "With kind 04 each pattern
/// goes over the advertisement's structures, then the scan response's: one number."
pub fn cost(condition: &[u8], data: &[u8], scan: &[u8], fault: Fault) -> (bool, u32) {
    let all = patterns(condition).expect("a well-formed condition");
    let list = sections(data, Some(scan), fault);
    let (mut count, mut matched) = (0, false);
    let texts: &[&[Text]] = match fault {
        Fault::PatternsInTurn => &[&[Text::Advertisement], &[Text::ScanResponse]],
        _ => &[&[Text::Advertisement, Text::ScanResponse]],
    };
    for some in texts {
        for pattern in &all {
            for section in list.iter().filter(|s| some.contains(&s.text)) {
                count += (fault != Fault::TypeNotCounted) as u32;
                if section.ad_type != pattern.ad_type {
                    continue;
                }
                let wanted = pattern.octets.len();
                let there = section.content.get(pattern.start..).unwrap_or(&[]);
                let equal = pattern.octets.iter().zip(there).take_while(|(one, other)| one == other).count();
                if there.len() < wanted {
                    let counted = there.len().min(equal + 1) as u32;
                    count += if fault == Fault::ShortCounted { counted } else { 0 };
                    continue;
                }
                let differs = equal < wanted && fault != Fault::DifferenceNotCounted;
                count += equal as u32 + differs as u32;
                matched |= equal == wanted;
                if matched && fault != Fault::CountsOn {
                    return (true, count);
                }
            }
        }
    }
    (matched, count)
}

/// A vector: condition, advertisement, scan response.
struct Vector {
    condition: Vec<u8>,
    data: Vec<u8>,
    scan: Vec<u8>,
}

/// `count` vectors of a seed, a line each: condition, advertisement, scan response, 1 if it matches or 0, the count.
pub fn costs(seed: u64, count: u64, fault: Fault) -> Vec<String> {
    let rows = (0..count).map(|index| {
        let vector = vector(&mut Random::of(seed ^ 0xC057, index));
        let (matched, n) = cost(&vector.condition, &vector.data, &vector.scan, fault);
        format!(
            "{} {} {} {} {n}",
            hex(&vector.condition),
            hex(&vector.data),
            hex(&vector.scan),
            matched as u8
        )
    });
    rows.collect()
}

fn vector(random: &mut Random) -> Vector {
    match random.below(20) {
        0 => worst(random),
        1..=6 => alike(random),
        _ => aimed(random),
    }
}

/// The most comparisons that there are: 15 patterns of one octet, ten structures of three octets in either text, every
/// AD type equal, every octet another. In most of them something is changed.
fn worst(random: &mut Random) -> Vector {
    let mut condition = vec![15];
    (0..15).for_each(|_| condition.extend([3, 0xFF, 0, 1]));
    let text: Vec<u8> = [2, 0xFF, 2].repeat(10);
    let mut vector = Vector { condition, data: text.clone(), scan: text };
    match random.below(6) {
        0 => vector.scan.clear(),
        1 => vector.condition[4 * random.below(15) + 4] = 2,
        2 => vector.data[3 * random.below(10) + 2] = 1,
        3 => vector.scan[3 * random.below(10) + 2] = 1,
        4 => vector.data[3 * random.below(10) + 1] = 0xFE,
        _ => (),
    }
    vector
}

/// Patterns and structures of one or two AD types with long equal beginnings: matches early and late, structures that
/// are one octet too short, starts behind the end.
fn alike(random: &mut Random) -> Vector {
    let text = |random: &mut Random| {
        let mut text = Vec::new();
        while text.len() < 31 && random.percent(85) {
            let length = random.pick(&[0, 1, 2, 3, 4, 5, 9]);
            text.extend([length + 1, random.pick(&[0x09, 0x09, 0x09, 0xFF])]);
            text.extend((0..length).map(|_| random.pick(&[7, 7, 7, 7, 7, 8])));
        }
        if random.percent(10) && !text.is_empty() {
            let place = random.below(text.len());
            text[place] = random.pick(&[0, 31]);
        }
        text.truncate(31);
        text
    };
    let mut condition = vec![0];
    for _ in 0..random.pick(&[1, 1, 2, 3, 6, 15]) {
        let length = random.pick(&[1, 1, 2, 3, 4, 5, 9, 28]);
        if condition.len() + 3 + length > 64 {
            break;
        }
        condition.extend([
            length as u8 + 2,
            random.pick(&[0x09, 0x09, 0xFF]),
            random.pick(&[0, 0, 0, 1, 2, 29]),
        ]);
        condition.extend((0..length).map(|_| random.pick(&[7, 7, 7, 7, 8])));
        condition[0] += 1;
    }
    let data = text(random);
    Vector { condition, data, scan: if random.percent(50) { text(random) } else { Vec::new() } }
}

/// A condition of the sessions' kind, and texts aimed at it: lists that end by 0 and by an overrun among them.
fn aimed(random: &mut Random) -> Vector {
    let condition = match random.below(4) {
        0 => conditions::longest(random),
        1 => {
            let length = random.between(5, 64).max(5) as usize;
            conditions::of_length(random, length)
        }
        _ => conditions::patterns(random),
    };
    let mut monitor = Monitor { kind: 1, length: condition.len() as u8, ..Monitor::NONE };
    monitor.octets[..condition.len()].copy_from_slice(&condition);
    let (data, scan) = conditions::texts(random, &[monitor]);
    Vector { condition, data, scan: if random.percent(50) { scan } else { Vec::new() } }
}
