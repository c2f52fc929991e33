//! The scripts stored for the program that makes every proved call: what they reach and what they notice.

use reference::block::SIZE;
use reference::calls::{self, PIECES};
use reference::census;
use reference::engine::Engine;
use reference::fault::{Fault, FAULTS};
use reference::history::History;
use reference::script::{self, Call};
use reference::state::Device;
use reference::timers::Timers;

/// The seed and the number of those stored in crates/calls_run (reference/stored).
const SEED: u64 = 31;
const COUNT: usize = 2000;

/// Every kind of call, every refusal, every size of a piece, texts shown whole.
#[test]
fn what_occurs() {
    let census = census::census(&calls::scripts(SEED, COUNT));
    assert!(census.calls.iter().all(|n| *n >= 100), "{census:?}");
    for (number, count) in census.refusals.iter().enumerate() {
        assert_eq!(*count >= 20, !census::UNUSED.contains(&number), "refusal {number}: {count}");
    }
    assert!((1..=PIECES).all(|size| census.sizes.contains(&size)), "{census:?}");
    assert!(census.whole >= 100);
}

#[test]
fn every_wrong_build_changes_a_line() {
    let mut left: Vec<(Fault, &str)> = FAULTS.to_vec();
    for stored in calls::scripts(SEED, COUNT) {
        let right = calls::line(&calls::expected(&stored.calls));
        left.retain(|(fault, _)| calls::line(&calls::expected_wrong(&stored.calls, *fault)) == right);
    }
    assert_eq!(left, []);
}

/// What the program is given, read back: the same calls, and of a state its block.
#[test]
fn input_read_back() {
    for stored in calls::scripts(SEED, 200) {
        let input = calls::input(&stored);
        let mut rest = &input[..];
        let mut engines: [Box<dyn Engine>; 2] = [Box::new(Timers::default()), Box::new(History::default())];
        let mut showings = stored.showings.iter();
        for call in &stored.calls {
            let number = |at: usize| u16::from_le_bytes([rest[at], rest[at + 1]]) as usize;
            let (tag, first, second, length) = (rest[0], number(1), number(3), number(5));
            let octets = rest[7..7 + length].to_vec();
            rest = &rest[7 + length..];
            let read = match tag {
                1 => Call::Start { opcode: first as u16, prefix: octets },
                2 => Call::Octets { octets, lent: first },
                3 => Call::Line { text: octets, lent: first },
                4 => Call::Save { lent: first },
                5 => Call::WriteLine { octets, lent: first },
                6 => Call::Restore { text: octets },
                7 => Call::Failover,
                8 => {
                    let showing = showings.next().unwrap();
                    assert_eq!((showing.lent, showing.piece), (first, second));
                    assert!((2880..=6000).contains(&first) && second > 0);
                    Call::Replay { text: octets }
                }
                10 => {
                    let showing = showings.next().unwrap();
                    assert_eq!((showing.lent, showing.piece), (first, second));
                    let (last, text) = octets.split_first_chunk().unwrap();
                    Call::ReplayTo { last: u32::from_le_bytes(*last), text: text.to_vec() }
                }
                12 => {
                    let (from, prefix) = octets.split_first_chunk().unwrap();
                    Call::Edition { from: u32::from_le_bytes(*from), prefix: prefix.to_vec() }
                }
                11 => Call::Ask(Device { kind: octets[0], address: octets[1..].try_into().unwrap() }),
                _ => Call::Adopt(Box::new(reference::block::state(&unpacked(&octets)))),
            };
            assert_eq!(read, *call);
            let [one, other] = engines.each_mut().map(|engine| script::call(engine.as_mut(), &read));
            assert_eq!(one, other);
        }
        assert_eq!(rest, [0; 7]);
    }
}

/// A block whose runs of zeros are written as 0 and their number.
fn unpacked(packed: &[u8]) -> [u8; SIZE] {
    let mut octets = Vec::new();
    let mut rest = packed.iter();
    while let Some(octet) = rest.next() {
        match octet {
            0 => octets.resize(octets.len() + *rest.next().unwrap() as usize, 0),
            _ => octets.push(*octet),
        }
    }
    octets.try_into().unwrap()
}

/// A line worked out by hand: a start and the save at the end, an image of three short lines.
#[test]
fn a_line_by_hand() {
    let calls = [Call::Start { opcode: 0xFC1E, prefix: vec![0x4D, 0x53] }];
    let image = b"A000000000001EFC024D53\nA400000000024D53\nAF0000\n";
    let seen = [&[0, 0, 0, 0, 0, 1][..], image, &[47, 0, 0, 0, 0, 1]].concat();
    let digest =
        seen.iter().fold(0u128, |value, octet| (value * 257 + *octet as u128 + 1) % ((1 << 54) - 33));
    assert_eq!(calls::line(&calls::expected(&calls)), format!("{digest:014x} 2 47\n"));
}
