//! Document 02, T-13: version 2 of the monitor command, both sides of each edge. Written by hand.

mod common;

use common::second::*;
use common::*;
use reference::private;
use reference::state::Device;

#[test]
fn lengths_and_answers() {
    both(|host| {
        let mut least = parameters(&Second { condition: vec![], ..plain() });
        assert_eq!(least.len(), 31);
        assert_eq!(host.command(&least), [0x12, 0x0F, 0], "31 octets, a malformed condition");
        least.pop();
        assert_eq!(host.command(&least), [0x12, 0x0F, 0]);
        assert_eq!(host.command(&[0x0F]), [0x12, 0x0F, 0]);
        assert_eq!(add(host, plain()), [0x00, 0x0F, 0]);
        assert_eq!(host.add(-60, -80, 1, 0, 1, &FLAGS), [0x00, 0x03, 1]);
        assert_eq!(host.command(&[0x04, 0]), [0x00, 0x04]);
        assert_eq!(add(host, plain()), [0x00, 0x0F, 0], "the lowest handle");
        let features = octets("0000 0C04000000000000 02 4D53");
        assert_eq!(host.command(&[0x00]), features);
        // 03's checks: thresholds, their order, interval, condition type.
        for (place, octet) in [(1, 21), (2, 0x80), (2, 0xC5), (3, 0), (3, 61), (30, 0), (30, 5)] {
            let mut octets = parameters(&plain());
            octets[place] = octet;
            assert_eq!(host.command(&octets), [0x12, 0x0F, 0], "octet {place} is {octet}");
        }
        let mut equal = parameters(&plain());
        equal[2] = 0xC4;
        assert_eq!(host.command(&equal), [0x00, 0x0F, 2]);
    });
}

#[test]
fn forbidden() {
    let address = ADDRESS.to_vec();
    let rows: Vec<(Second, bool)> = vec![
        // Bits 0 to 5 all clear, reserved bits or not; each bit alone.
        (Second { options: 0x00, ..plain() }, false),
        (Second { options: 0x40, ..plain() }, false),
        (Second { options: 0xC0, ..plain() }, false),
        (Second { options: 0x01, ..plain() }, true),
        (Second { options: 0x04, ..plain() }, true),
        (Second { options: 0x10, ..plain() }, true),
        (Second { options: 0xE0, ..plain() }, true),
        // Bits 1 and 3 with a zero IRK.
        (Second { options: 0x02, ..plain() }, false),
        (Second { options: 0x08, ..plain() }, false),
        (Second { options: 0x22, ..plain() }, false),
        (Second { options: 0x02, irk: KEY, ..plain() }, true),
        (Second { options: 0x08, irk: KEY, ..plain() }, true),
        (Second { options: 0x35, ..plain() }, true),
        // Condition types 3 and 4 with one of bits 0 to 3.
        (Second { options: 0x21, kind: 3, condition: KEY.to_vec(), ..plain() }, false),
        (Second { options: 0x22, irk: KEY, kind: 3, condition: KEY.to_vec(), ..plain() }, false),
        (Second { options: 0x24, kind: 4, condition: address.clone(), ..plain() }, false),
        (Second { options: 0x28, irk: KEY, kind: 4, condition: address.clone(), ..plain() }, false),
        (Second { options: 0x30, kind: 3, condition: KEY.to_vec(), ..plain() }, true),
        (Second { options: 0x20, kind: 4, condition: address.clone(), ..plain() }, true),
        // Duplicates with a sampling period.
        (Second { reports: 0x03, sampling: 0, ..plain() }, true),
        (Second { reports: 0x03, sampling: 1, ..plain() }, false),
        (Second { reports: 0x01, sampling: 0xFF, ..plain() }, false),
        (Second { reports: 0xFE, sampling: 0xFF, ..plain() }, true),
        // The peer's address type.
        (Second { peer_type: 1, ..plain() }, true),
        (Second { peer_type: 2, ..plain() }, false),
        (Second { peer_type: 255, options: 0x21, ..plain() }, false),
        // No report asked for; reserved bits.
        (Second { reports: 0x00, ..plain() }, true),
        (Second { reports: 0xF0, ..plain() }, true),
    ];
    both(|host| {
        for (place, (second, taken)) in rows.iter().enumerate() {
            let returns = host.command(&parameters(second));
            assert_eq!(returns[..2], [if *taken { 0x00 } else { 0x12 }, 0x0F], "row {place}");
            if *taken {
                host.command(&[0x04, returns[2]]);
            }
        }
        // 0x12 before 0x07: with 16 live, and with a condition that is too long.
        for _ in 0..16 {
            host.add(-60, -80, 1, 0, 1, &FLAGS);
        }
        for (place, (second, taken)) in rows.iter().enumerate() {
            let status = if *taken { 0x07 } else { 0x12 };
            assert_eq!(host.command(&parameters(second)), [status, 0x0F, 0], "row {place}");
        }
        host.command(&[0x04, 3]);
        let long = [&[1, 63, 0xFF, 0][..], &[7; 61]].concat();
        assert_eq!(long.len(), 65);
        assert_eq!(add(host, Second { condition: long.clone(), ..plain() }), [0x07, 0x0F, 0]);
        assert_eq!(add(host, Second { options: 0x40, condition: long.clone(), ..plain() }), [0x12, 0x0F, 0]);
        let malformed = Second { condition: [&[2], &long[1..]].concat(), ..plain() };
        assert_eq!(add(host, malformed), [0x12, 0x0F, 0]);
    });
}

/// Does a packet start, by these options? The peer is DEVICE, the IRK is KEY.
fn starts(options: u8, event_type: u8, device: &Device, data: &[u8]) -> bool {
    let mut started = None;
    both(|host| {
        let (peer, peer_type) = (DEVICE.address, DEVICE.kind);
        let made = add(host, Second { options, peer, peer_type, irk: KEY, sampling: 0xFF, ..plain() });
        assert_eq!(made, [0x00, 0x0F, 0]);
        host.command(&[0x05, 1]);
        let answer = given(host, event_type, device, data, -60);
        assert!(answer.is_empty() || answer.starts_with(&event(device, 0, 1)));
        started = Some(!answer.is_empty());
    });
    started.unwrap()
}

#[test]
fn options() {
    let own = Device { kind: 1, address: private::address(&KEY, [1, 2, 0x43]) };
    let other = Device { kind: 0, address: [1; 6] };
    let public = Device { kind: 1, ..DEVICE };
    for (options, expected) in [
        // The peer's address; with the other type; by the IRK; another; the peer without the condition.
        (0x01, [true, false, false, false, false]),
        (0x02, [false, false, true, false, false]),
        (0x03, [true, false, true, false, false]),
        (0x04, [false; 5]),
        (0x08, [false; 5]),
        (0x10, [false; 5]),
        (0x1C, [false; 5]),
        (0x1D, [true, false, false, false, false]),
        (0x20, [true, true, true, true, false]),
        (0x21, [true, true, true, true, false]),
        (0x41, [true, false, false, false, false]),
        (0xDE, [false, false, true, false, false]),
    ] {
        for event_type in [0, 1] {
            let met = [
                starts(options, event_type, &DEVICE, &DATA),
                starts(options, event_type, &public, &DATA),
                starts(options, event_type, &own, &DATA),
                starts(options, event_type, &other, &DATA),
                starts(options, event_type, &DEVICE, &[]),
            ];
            assert_eq!(met, expected, "options {options:02X}, event type {event_type}");
        }
    }
    assert!(!starts(0x02, 0, &own, &[]), "the IRK without the condition");
}

/// Reports at a start and under watch, by the filter and the packet's event type.
#[test]
fn reports() {
    for (reports, plain_reported, directed_reported) in [
        (0x00, false, false),
        (0x02, true, true),
        (0x04, false, false),
        (0x06, true, true),
        (0x08, false, true),
        (0x0A, true, true),
        (0x0C, false, true),
        (0xF0, false, false),
    ] {
        both(|host| {
            add(host, Second { reports, ..plain() });
            host.command(&[0x05, 1]);
            for (event_type, reported) in [(0, plain_reported), (1, directed_reported)] {
                let device = Device { kind: 0, address: [event_type; 6] };
                let one = |rssi| match reported {
                    true => report_of(event_type, &device, &DATA, rssi),
                    false => vec![],
                };
                let started = [event(&device, 0, 1), one(-60)].concat();
                assert_eq!(given(host, event_type, &device, &DATA, -60), started, "{reports:02X}");
                assert_eq!(given(host, event_type, &device, &DATA, -90), one(-90), "{reports:02X}");
            }
            host.quiet_ticks(9);
            assert_eq!(host.tick().len(), 28, "two stops");
            // Filter off: every packet is reported.
            host.command(&[0x05, 0]);
            assert_eq!(given(host, 0, &DEVICE, &DATA, -61), report(&DEVICE, &DATA, -61));
        });
    }
}

/// A window's report is judged by the packet that it reports, the latest; without a bit that fits it still runs.
#[test]
fn windows() {
    both(|host| {
        add(host, Second { reports: 0x08, sampling: 2, ..plain() });
        host.command(&[0x05, 1]);
        assert_eq!(given(host, 0, &DEVICE, &DATA, -60), event(&DEVICE, 0, 1));
        given(host, 1, &DEVICE, &DATA, -60);
        given(host, 0, &DEVICE, &DATA, -61);
        host.quiet_ticks(2);
        given(host, 0, &DEVICE, &DATA, -60);
        given(host, 1, &DEVICE, &DATA, -61);
        host.quiet_ticks(1);
        assert_eq!(
            host.tick(),
            report_of(1, &DEVICE, &DATA, -61),
            "the mean of both, the window before is emptied"
        );
    });
}
