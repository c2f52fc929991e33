//! Document 01, "A session in full", octet for octet, and P1 to P10 of "Both sides of each edge".

mod common;

use common::*;
use reference::history::History;
use reference::program;
use reference::timers::Timers;

const FRESH: &str = "A000000000001EFC024D53\nA400000000024D53\nAF0000\n";
const FRAMES: &str = "01010000001EFC0D03C4B003000400060504030201\n0202000000000006050403020100C4\n";
const ANSWERS: &str = "0E06011EFC000300\nFF0C4D5302000605040302010001\n3E0C0201000006050403020100C4\n";
const IMAGE: &str = "A002000000001EFC024D53\nA400000000024D53\nA100C4B00300040700060504030201\n\
    A30000060504030201000000000000000000000000000000C40000\nAF0101\n";
const STOP: &str = "FF0C4D5302000605040302010000";

fn ticks(first: u32, count: u32) -> String {
    (first..first + count).map(|n| format!("03{:08X}\n", n.swap_bytes())).collect()
}

fn written(image: &str, journal: &str) -> String {
    let first = program::output(&mut Timers::default(), image.as_bytes(), journal.as_bytes(), &[]);
    let second = program::output(&mut History::default(), image.as_bytes(), journal.as_bytes(), &[]);
    assert_eq!(first, second);
    String::from_utf8(first).unwrap()
}

/// The state after the two frames of the session.
fn watched(host: &mut Host) {
    assert_eq!(host.image(), FRESH.as_bytes());
    let mut answers = String::new();
    for frame in FRAMES.lines() {
        let answer = host.give(&octets(frame)).unwrap();
        for event in reference::event::split(&answer) {
            answers += std::str::from_utf8(&line(event)).unwrap();
        }
    }
    assert_eq!(answers, ANSWERS);
    assert_eq!(host.image(), IMAGE.as_bytes());
    host.next = 3;
}

#[test]
fn p1_the_session() {
    both(watched);
    assert_eq!(octets(FRAMES.lines().nth(1).unwrap()).len(), 15);
    assert_eq!(written(FRESH, FRAMES), format!("{ANSWERS}{IMAGE}"));
    assert_eq!(written(FRESH, ""), FRESH);
    assert_eq!(written(IMAGE, FRAMES), IMAGE, "seen lines are skipped");
}

#[test]
fn p1_the_program() {
    let after = IMAGE.replace("A002", "A01F").replace("0302010000", "0302011D00");
    assert_eq!(written(IMAGE, &ticks(3, 29)), after);
    let stopped = "A020000000001EFC024D53\nA400000000024D53\nA100C4B00300040700060504030201\nAF0100\n";
    assert_eq!(written(IMAGE, &ticks(3, 30)), format!("{STOP}\n{stopped}"));
    assert_eq!(written(IMAGE, &ticks(4, 1)), format!("{IMAGE}2\n"), "a gap stops replay");
    assert_eq!(written(IMAGE, "03030000\n"), format!("{IMAGE}4\n"));
    assert_eq!(written(IMAGE, "\n"), format!("{IMAGE}4\n"), "an empty line is a line of 0 octets");
    assert_eq!(written(IMAGE, "0303000000"), IMAGE, "a final piece without LF is not read");
    assert_eq!(written(&IMAGE.replace("AF0101", "AF0100"), FRAMES), "10\n");
    assert_eq!(written("", ""), "10\n");
}

#[test]
fn p2_the_thirtieth_tick() {
    both(|host| {
        watched(host);
        host.quiet_ticks(29);
        assert_eq!(host.tick(), octets(STOP));
        host.quiet_ticks(60);
    });
    both(|host| {
        watched(host);
        host.quiet_ticks(29);
        assert_eq!(host.packet(&DEVICE, &[], -79), report(&DEVICE, &[], -79));
        host.quiet_ticks(29);
        assert_eq!(host.tick(), octets(STOP));
    });
    both(|host| {
        watched(host);
        host.quiet_ticks(29);
        assert_eq!(host.packet(&DEVICE, &[], -80), report(&DEVICE, &[], -80));
        assert_eq!(host.tick(), octets(STOP));
    });
}

#[test]
fn p3_high_starts() {
    both(|host| {
        host.add(-60, -80, 3, 0, 4, &ADDRESS);
        assert_eq!(host.packet(&DEVICE, &[], -61), report(&DEVICE, &[], -61));
        assert!(host.image().ends_with(b"AF0100\n"));
        assert_eq!(
            host.packet(&DEVICE, &[], -60),
            [event(&DEVICE, 0, 1), report(&DEVICE, &[], -60)].concat()
        );
        assert!(host.image().ends_with(b"AF0101\n"));
    });
}

#[test]
fn p4_the_mean() {
    let rows: [(&[i8], i8); 9] = [
        (&[-60, -61], -61),
        (&[-1, 0], -1),
        (&[0, 1], 0),
        (&[-15, -30], -23),
        (&[-127], -127),
        (&[20, 20, 20], 20),
        (&[-127, 20], -54),
        (&[-1, -1, 0], -1),
        (&[1, 1, 0], 0),
    ];
    both(|host| {
        host.add(-60, -80, 3, 2, 4, &ADDRESS);
        host.command(&[0x05, 1]);
        host.packet(&DEVICE, &[], 20);
        for (rssis, mean) in rows {
            for (i, rssi) in rssis.iter().enumerate() {
                assert_eq!(host.packet(&DEVICE, &[i as u8], *rssi), []);
            }
            host.quiet_ticks(1);
            assert_eq!(host.tick(), report(&DEVICE, &[rssis.len() as u8 - 1], mean), "{rssis:?}");
        }
    });
}

#[test]
fn p5_thresholds() {
    both(|host| {
        assert_eq!(host.add(20, -80, 1, 0, 4, &ADDRESS), [0x00, 0x03, 0]);
        assert_eq!(host.add(21, -80, 1, 0, 4, &ADDRESS), [0x12, 0x03, 0]);
        assert_eq!(host.add(20, 19, 1, 0, 4, &ADDRESS), [0x00, 0x03, 1]);
        assert_eq!(host.add(21, 20, 1, 0, 4, &ADDRESS), [0x12, 0x03, 0]);
        assert_eq!(host.add(-126, -127, 1, 0, 4, &ADDRESS), [0x00, 0x03, 2]);
        assert_eq!(host.add(-126, -128, 1, 0, 4, &ADDRESS), [0x12, 0x03, 0]);
        assert_eq!(host.add(-60, -61, 1, 0, 4, &ADDRESS), [0x00, 0x03, 3]);
        assert_eq!(host.add(-61, -60, 1, 0, 4, &ADDRESS), [0x12, 0x03, 0]);
        assert_eq!(host.add(127, -60, 1, 0, 4, &ADDRESS), [0x12, 0x03, 0]);
    });
}

#[test]
fn p6_intervals() {
    both(|host| {
        for (interval, returns) in
            [(0, [0x12, 0x03, 0]), (1, [0x00, 0x03, 0]), (60, [0x00, 0x03, 1]), (61, [0x12, 0x03, 0])]
        {
            assert_eq!(host.add(-60, -80, interval, 0, 4, &ADDRESS), returns);
        }
        let two = [event(&DEVICE, 0, 1), event(&DEVICE, 1, 1), report(&DEVICE, &[], 0)].concat();
        assert_eq!(host.packet(&DEVICE, &[], 0), two);
        host.quiet_ticks(9);
        assert_eq!(host.tick(), event(&DEVICE, 0, 0));
        host.quiet_ticks(589);
        assert_eq!(host.tick(), event(&DEVICE, 1, 0));
    });
}

#[test]
fn p7_handles() {
    both(|host| {
        for handle in 0..3 {
            assert_eq!(host.add(-60, -80, 1, 0, 4, &ADDRESS), [0x00, 0x03, handle]);
        }
        assert_eq!(host.command(&[0x04, 1]), [0x00, 0x04]);
        assert_eq!(host.add(-60, -80, 1, 0, 4, &ADDRESS), [0x00, 0x03, 1]);
        assert_eq!(host.add(-60, -80, 1, 0, 4, &ADDRESS), [0x00, 0x03, 3]);
    });
}

#[test]
fn p8_enable() {
    both(|host| {
        assert_eq!(host.command(&[0x05, 0]), [0x0C, 0x05]);
        assert_eq!(host.command(&[0x05, 1]), [0x00, 0x05]);
        assert_eq!(host.command(&[0x05, 1]), [0x0C, 0x05]);
        assert_eq!(host.command(&[0x05, 2]), [0x12, 0x05]);
        assert_eq!(host.command(&[0x05, 0]), [0x00, 0x05]);
    });
}

#[test]
fn p9_straddling_uuid() {
    both(|host| {
        host.add(-60, -80, 1, 0, 2, &[1, 0x12, 0x18]);
        let plain = |data: &[u8]| report(&DEVICE, data, 0);
        // 16-bit UUIDs FF12 and 18FF: the octets 12 18 straddle them.
        let straddling = octets("0503FF1218FF");
        assert_eq!(host.packet(&DEVICE, &straddling, 0), plain(&straddling));
        let second = octets("0503FFFF1218");
        assert_eq!(host.packet(&DEVICE, &second, 0), [event(&DEVICE, 0, 1), plain(&second)].concat());
    });
}

#[test]
fn p10_numbers() {
    both(|host| {
        host.tick();
        let before = host.image();
        assert_eq!(host.give(&octets("0301000000")), Err(1));
        assert_eq!(host.give(&octets("0300000000")), Err(1));
        assert_eq!(host.give(&octets("0303000000")), Err(2));
        assert_eq!(host.image(), before);
        assert_eq!(host.give(&octets("0302000000")), Ok(vec![]));
    });
}
