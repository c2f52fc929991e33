//! Document 02, T-13: duplicates, the A5 line, a failover between a packet and its duplicate. Written by hand.

mod common;

use common::second::*;
use common::*;

fn filtering() -> Second {
    Second { reports: 0x03, ..plain() }
}

/// The line of the first pair from its event type on.
fn kept(host: &Host) -> String {
    let text = String::from_utf8(host.image()).unwrap();
    let line = text.lines().find(|line| line.starts_with("A3")).unwrap();
    line[50..].to_string()
}

#[test]
fn duplicates() {
    both(|host| {
        add(host, filtering());
        host.command(&[0x05, 1]);
        let seen = |event_type, rssi| report_of(event_type, &DEVICE, &DATA, rssi);
        assert_eq!(given(host, 0, &DEVICE, &DATA, -60), [event(&DEVICE, 0, 1), seen(0, -60)].concat());
        assert_eq!(kept(host), "0003020106");
        // The same packet, and at another RSSI: duplicates. It is good all the same.
        assert_eq!(given(host, 0, &DEVICE, &DATA, -60), []);
        host.quiet_ticks(9);
        assert_eq!(given(host, 0, &DEVICE, &DATA, -79), []);
        host.quiet_ticks(9);
        // The same data with another event type; the first again; other data.
        assert_eq!(given(host, 2, &DEVICE, &DATA, -79), seen(2, -79));
        assert_eq!(given(host, 2, &DEVICE, &DATA, -79), []);
        assert_eq!(given(host, 0, &DEVICE, &DATA, -79), seen(0, -79));
        let more = [2, 1, 6, 0];
        assert_eq!(given(host, 0, &DEVICE, &more, -79), report(&DEVICE, &more, -79));
        assert_eq!(given(host, 0, &DEVICE, &more, -79), []);
        assert_eq!(given(host, 0, &DEVICE, &DATA, -79), seen(0, -79));
        // A packet that does not match changes nothing.
        assert_eq!(given(host, 0, &DEVICE, &[], -79), []);
        assert_eq!(given(host, 0, &DEVICE, &DATA, -79), []);
        // After a stop the new start is never a duplicate.
        host.quiet_ticks(9);
        assert_eq!(host.tick(), event(&DEVICE, 0, 0));
        assert_eq!(given(host, 0, &DEVICE, &DATA, -60), [event(&DEVICE, 0, 1), seen(0, -60)].concat());
        assert_eq!(given(host, 0, &DEVICE, &DATA, -60), []);
    });
}

/// Filter off: a duplicate is reported and is still no reason; packets are kept all the same.
#[test]
fn duplicates_while_off() {
    both(|host| {
        add(host, filtering());
        let two = [2, 1, 6, 0];
        given(host, 0, &DEVICE, &DATA, -60);
        assert_eq!(given(host, 0, &DEVICE, &DATA, -60), report(&DEVICE, &DATA, -60));
        given(host, 0, &DEVICE, &two, -60);
        host.command(&[0x05, 1]);
        assert_eq!(given(host, 0, &DEVICE, &two, -60), []);
        assert_eq!(given(host, 0, &DEVICE, &DATA, -60), report(&DEVICE, &DATA, -60));
    });
}

/// A duplicate for one monitor may be a reason for another; scan responses are not compared.
#[test]
fn duplicates_elsewhere() {
    both(|host| {
        add(host, filtering());
        host.command(&[0x05, 1]);
        given(host, 0, &DEVICE, &DATA, -60);
        assert_eq!(host.scanned(0, &DEVICE, &DATA, &[1, 9], -60), [], "a duplicate of the advertisement");
        host.add(-60, -80, 1, 0, 1, &FLAGS);
        let both_seen = [report(&DEVICE, &DATA, -60), report_of(4, &DEVICE, &[], -60)].concat();
        let started = [event(&DEVICE, 1, 1), both_seen.clone()].concat();
        assert_eq!(host.scanned(0, &DEVICE, &DATA, &[], -60), started);
        assert_eq!(host.scanned(0, &DEVICE, &DATA, &[], -60), both_seen, "sampling 0 of the other");
        host.command(&[0x04, 1]);
        assert_eq!(host.scanned(0, &DEVICE, &DATA, &[], -60), []);
    });
}

/// Only directed packets are asked for: others are no reason and are not kept; none yet is event type 0xFF.
#[test]
fn only_reasons_are_kept() {
    both(|host| {
        add(host, Second { reports: 0x09, ..plain() });
        host.command(&[0x05, 1]);
        assert_eq!(given(host, 0, &DEVICE, &DATA, -60), event(&DEVICE, 0, 1));
        assert_eq!(kept(host), "FF00");
        assert_eq!(given(host, 1, &DEVICE, &DATA, -60), report_of(1, &DEVICE, &DATA, -60));
        assert_eq!(kept(host), "0103020106");
        assert_eq!(given(host, 0, &DEVICE, &DATA, -60), []);
        assert_eq!(given(host, 1, &DEVICE, &DATA, -60), [], "a duplicate of the last reason");
    });
}

/// The A5 line, and a failover between a packet and its duplicate.
#[test]
fn over_a_failover() {
    both(|host| {
        host.add(-60, -80, 1, 0, 4, &[0, 1, 1, 1, 1, 1, 1]);
        let made = Second {
            options: 0xE1,
            reports: 0xF3,
            peer: [1, 2, 3, 4, 5, 6],
            peer_type: 1,
            irk: KEY,
            ..plain()
        };
        assert_eq!(add(host, made), [0x00, 0x0F, 1]);
        host.add(-60, -80, 1, 0, 4, &[0, 1, 1, 1, 1, 1, 1]);
        host.command(&[0x05, 1]);
        given(host, 3, &DEVICE, &DATA, -60);
        let image = host.image();
        let text = String::from_utf8(image.clone()).unwrap();
        let expected = "A005000000011EFC024D53
            A400000000024D53
            A100C4B00100040700010101010101
            A501C4B001000105 0103010006 E1F3 010203040506 01 09090909090909090909090909090909
            A102C4B00100040700010101010101
            A30100060504030201 0000 00 00000000 0000000000000000 C4 03 03 020106
            AF0301";
        let expected: String = expected.lines().map(|l| l.replace(' ', "") + "\n").collect();
        assert_eq!(text, expected);
        host.engine.restore(&image).unwrap();
        assert_eq!(given(host, 3, &DEVICE, &DATA, -60), [], "still a duplicate");
        assert_eq!(given(host, 1, &DEVICE, &DATA, -60), report_of(1, &DEVICE, &DATA, -60));
        // Texts that are none: options 0 or reserved alone, peer type 2, an octet less or more, A1 with the octets.
        for (old, new) in [
            ("E1F3", "00F3"),
            ("E1F3", "40F3"),
            ("0405060109", "0405060209"),
            ("0909\nA1", "09\nA1"),
            ("0909\nA1", "090909\nA1"),
            ("A501", "A101"),
            ("C40303020106", "C40403020106"),
            ("C40303020106", "C4FF03020106"),
            ("C40303020106", "C4FE00"),
        ] {
            let other = text.replacen(old, new, 1);
            assert_ne!(other, text, "{old}");
            assert!(host.engine.restore(other.as_bytes()).is_err(), "{old} {new}");
        }
        for (old, new) in
            [("C40303020106", "C4FF00"), ("C40303020106", "C40000"), ("E1F3", "21F3"), ("E1F3", "2103")]
        {
            assert!(host.engine.restore(text.replacen(old, new, 1).as_bytes()).is_ok(), "{old} {new}");
        }
        // All 25 octets 0: neither an A5 line nor another form of A1.
        let zeros =
            text.replace("E1F3", "0000").replace("0102030405060109", "0000000000000009").replace("09", "00");
        assert!(host.engine.restore(zeros.as_bytes()).is_err());
    });
}

/// A monitor of version 1 and the same of version 2 answer alike.
#[test]
fn version_1_is_version_2_with_its_values() {
    both(|host| {
        host.add(-60, -80, 1, 2, 1, &FLAGS);
        add(host, Second { reports: 0x06, sampling: 2, ..plain() });
        host.command(&[0x05, 1]);
        let one = host.packet(&DEVICE, &DATA, -60);
        assert_eq!(one, [event(&DEVICE, 0, 1), event(&DEVICE, 1, 1), report(&DEVICE, &DATA, -60)].concat());
        host.packet(&DEVICE, &DATA, -70);
        host.quiet_ticks(1);
        assert_eq!(host.tick(), report(&DEVICE, &DATA, -70).repeat(2));
    });
}
