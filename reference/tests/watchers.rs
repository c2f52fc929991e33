//! Document 02, T-02: which monitors watch a device. Rows by hand, and the index after every frame of sessions.

mod common;

use common::*;
use reference::engine::Engine;
use reference::generate;
use reference::history::History;
use reference::index::Entry;
use reference::script;
use reference::state::{Device, State};
use reference::timers::Timers;

const FLAGS: [u8; 5] = [1, 3, 0x01, 0, 0x06];
const DATA: [u8; 3] = [2, 1, 6];

fn device(i: u8) -> Device {
    Device { kind: 0, address: [i, 1, 2, 3, 4, 5] }
}

fn listed(host: &Host) -> Vec<(Device, u16)> {
    let state = host.engine.state();
    state.index[..state.index_count as usize].iter().map(|entry| (entry.device, entry.mask)).collect()
}

#[test]
fn none_one_sixteen() {
    both(|host| {
        assert_eq!(host.engine.ask(&device(1)), None);
        for _ in 0..16 {
            host.add(-60, -80, 1, 0, 1, &FLAGS);
        }
        assert_eq!(host.engine.ask(&device(1)), None);
        host.packet(&device(1), &DATA, -60);
        assert_eq!(host.engine.ask(&device(1)), Some((16, 0)));
        assert_eq!(host.engine.ask(&device(2)), None);
        assert_eq!(host.engine.ask(&Device { kind: 1, ..device(1) }), None, "the other type");
        host.command(&[0x04, 0]);
        host.command(&[0x04, 2]);
        assert_eq!(host.engine.ask(&device(1)), Some((14, 1)));
        for handle in (1..15).filter(|h| *h != 2) {
            host.command(&[0x04, handle]);
        }
        assert_eq!(host.engine.ask(&device(1)), Some((1, 15)));
        host.quiet_ticks(9);
        assert_eq!(host.engine.ask(&device(1)), Some((1, 15)));
        host.tick();
        assert_eq!(host.engine.ask(&device(1)), None);
    });
}

/// One address with the two types: two devices.
#[test]
fn two_types() {
    both(|host| {
        host.add(-60, -80, 1, 0, 4, &ADDRESS);
        host.add(-60, -80, 1, 0, 4, &[1, 6, 5, 4, 3, 2, 1]);
        host.add(-60, -80, 1, 0, 1, &FLAGS);
        let other = Device { kind: 1, ..DEVICE };
        host.packet(&other, &DATA, -60);
        host.packet(&DEVICE, &[], -60);
        assert_eq!(host.engine.ask(&DEVICE), Some((1, 0)));
        assert_eq!(host.engine.ask(&other), Some((2, 1)));
        assert_eq!(listed(host), [(other, 0b110), (DEVICE, 0b001)]);
    });
}

/// A device whose first pair ends while another is held: the order moves. Not the order of the latest start.
#[test]
fn the_order_moves() {
    both(|host| {
        host.add(-60, -80, 1, 0, 1, &FLAGS);
        host.add(-50, -80, 60, 0, 1, &FLAGS);
        host.packet(&device(1), &DATA, -60);
        host.packet(&device(2), &DATA, -50);
        host.packet(&device(1), &DATA, -50);
        assert_eq!(listed(host), [(device(1), 0b11), (device(2), 0b11)]);
        host.command(&[0x04, 0]);
        assert_eq!(listed(host), [(device(2), 0b10), (device(1), 0b10)]);
        let image = host.image();
        host.engine.restore(&image).unwrap();
        assert_eq!(listed(host), [(device(2), 0b10), (device(1), 0b10)]);
        assert_eq!(host.engine.ask(&device(1)), Some((1, 1)));
    });
    both(|host| {
        host.add(-60, -80, 1, 0, 1, &FLAGS);
        host.add(-50, -80, 2, 0, 1, &FLAGS);
        host.packet(&device(1), &DATA, -60);
        host.packet(&device(2), &DATA, -50);
        host.packet(&device(1), &DATA, -50);
        host.quiet_ticks(9);
        host.tick();
        assert_eq!(listed(host), [(device(2), 0b10), (device(1), 0b10)]);
    });
}

#[test]
fn displaced() {
    both(|host| {
        host.add(-127, -127, 60, 0xFF, 1, &FLAGS);
        for i in 0..64 {
            host.packet(&device(i), &DATA, if i == 9 { -70 } else { -50 });
        }
        assert_eq!(host.engine.ask(&device(9)), Some((1, 0)));
        host.packet(&device(90), &DATA, -60);
        assert_eq!(host.engine.ask(&device(9)), None);
        assert_eq!(host.engine.ask(&device(90)), Some((1, 0)));
        assert_eq!(listed(host).len(), 64);
    });
}

/// No 7: in a state that is not sound the first of at most 64 entries for the device answers.
#[test]
fn states_that_are_not_sound() {
    both(|host| {
        let entry = |i, mask| Entry { device: device(i), mask };
        let mut state = State::fresh(OPCODE, &PREFIX);
        state.index[..4].copy_from_slice(&[entry(1, 0), entry(2, 0b1010), entry(2, 1), entry(1, 1)]);
        state.index[63] = entry(3, 0x8000);
        for (count, answers) in [
            (0, [None, None, None]),
            (2, [None, Some((2, 1)), None]),
            (63, [None, Some((2, 1)), None]),
            (64, [None, Some((2, 1)), Some((1, 15))]),
            (255, [None, Some((2, 1)), Some((1, 15))]),
        ] {
            state.index_count = count;
            host.engine.adopt(&state);
            assert_eq!([1, 2, 3].map(|i| host.engine.ask(&device(i))), answers, "{count}");
            assert_eq!(host.give(&octets("0301000000")), Err(7));
            assert_eq!(host.engine.state(), state);
        }
    });
}

/// After every call of a session the index is the one worked out from the pairs, and both engines hold the same.
#[test]
fn after_every_call() {
    let mut most = 0;
    for index in 0..600 {
        let mut engines: [Box<dyn Engine>; 2] = [Box::new(Timers::default()), Box::new(History::default())];
        for call in generate::session(41, index, 80) {
            let [state, other] = engines.each_mut().map(|engine| {
                script::call(engine.as_mut(), &call);
                engine.state()
            });
            assert_eq!(state, other);
            let mut devices: Vec<Device> = Vec::new();
            for pair in state.pairs() {
                if !devices.contains(&pair.device) {
                    devices.push(pair.device);
                }
            }
            let count = state.index_count as usize;
            assert_eq!(devices, state.index[..count].iter().map(|e| e.device).collect::<Vec<_>>());
            for entry in &state.index[..count] {
                let own = state.pairs().iter().filter(|p| p.device == entry.device);
                assert_eq!(entry.mask, own.fold(0, |mask, p| mask | 1 << p.handle));
            }
            most = most.max(count);
        }
    }
    assert!(most > 10);
}
