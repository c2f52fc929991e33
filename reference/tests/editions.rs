//! Document 02, T-12: prefix changes with a history. Rows by hand, both sides of each edge.

mod common;

use common::*;
use reference::generate::frames;
use reference::state::State;

/// A condition of type 1 and data that meet.
const FLAGS: [u8; 5] = [1, 3, 0x01, 0, 0x06];
const DATA: [u8; 3] = [2, 1, 6];

#[test]
fn number_and_position() {
    both(|host| {
        refused(host, 0, &[1], 14);
        host.quiet_ticks(5);
        for from in [0, 4, 5] {
            refused(host, from, &[1], 14);
        }
        assert_eq!(host.edition(6, &[1]), 0);
    });
}

#[test]
fn number_and_last_edition() {
    both(|host| {
        assert_eq!(host.edition(7, &[1]), 0);
        for from in [0, 1, 6, 7] {
            refused(host, from, &[2], 14);
        }
        assert_eq!(host.edition(8, &[2]), 0);
        // The last edition decides, whether in force or not.
        host.quiet_ticks(7);
        refused(host, 8, &[3], 14);
        host.quiet_ticks(3);
        refused(host, 10, &[3], 14);
        assert_eq!(host.edition(11, &[3]), 0);
    });
}

#[test]
fn thirty_two_editions() {
    both(|host| {
        for from in 1..=31 {
            assert_eq!(host.edition(from, &[from as u8]), 0, "edition {}", from + 1);
        }
        refused(host, 32, &[32], 13);
        refused(host, u32::MAX, &[], 13);
        // No edition is forgotten as frames pass.
        host.quiet_ticks(40);
        refused(host, 41, &[41], 13);
        let state = host.engine.state();
        assert_eq!(state.edition_count, 32);
        assert_eq!(state.editions[17].from, 17);
        assert_eq!(host.command(&[0x00]), features(&[31]));
    });
}

#[test]
fn prefixes_of_32_and_33() {
    both(|host| {
        refused(host, 1, &[9; 33], 15);
        refused(host, 1, &[9; 255], 15);
        assert_eq!(host.edition(1, &[9; 32]), 0);
        assert_eq!(host.edition(2, &[]), 0);
        assert_eq!(host.command(&[0x00]), features(&[9; 32]));
        assert_eq!(host.command(&[0x00]), features(&[]));
    });
}

/// 7, then 15, then 14, then 13.
#[test]
fn the_order_of_refusals() {
    both(|host| {
        for from in 1..=31 {
            assert_eq!(host.edition(from, &[]), 0);
        }
        refused(host, 32, &[], 13);
        refused(host, 31, &[], 14);
        refused(host, 0, &[], 14);
        refused(host, 31, &[0; 33], 15);
        refused(host, 32, &[0; 33], 15);
        let mut state = host.engine.state();
        state.filter = 2;
        host.engine.adopt(&state);
        for (from, prefix) in [(32, &[0; 0][..]), (31, &[]), (31, &[0; 33])] {
            assert_eq!(host.edition(from, prefix), 7);
            assert_eq!(host.engine.state(), state);
        }
    });
}

/// The frame before, at and after an edition's number: commands.
#[test]
fn what_00_returns() {
    both(|host| {
        assert_eq!(host.edition(3, &[0xAA]), 0);
        assert_eq!(host.edition(4, &[0xBB, 0xCC]), 0);
        assert_eq!(host.command(&[0x00]), features(&PREFIX), "frame 1");
        assert_eq!(host.command(&[0x00]), features(&PREFIX), "frame 2");
        assert_eq!(host.command(&[0x00]), features(&[0xAA]), "frame 3");
        assert_eq!(host.command(&[0x00]), features(&[0xBB, 0xCC]), "frame 4");
        assert_eq!(host.command(&[0x00]), features(&[0xBB, 0xCC]), "frame 5");
    });
}

/// The frame before, at and after an edition's number: device events of packets and of ticks. A pair that started with
/// one edition stops with another.
#[test]
fn events() {
    both(|host| {
        let device = |i: u8| reference::state::Device { kind: 0, address: [i; 6] };
        host.add(-60, -80, 1, 0xFF, 1, &FLAGS);
        assert_eq!(host.edition(3, &[0xAA]), 0);
        for (i, prefix) in [(2, &PREFIX[..]), (3, &[0xAA]), (4, &[0xAA])] {
            let start = [event_with(prefix, &device(i), 0, 1), report(&device(i), &DATA, -60)].concat();
            assert_eq!(host.packet(&device(i), &DATA, -60), start, "frame {i}");
        }
        // Ten ticks are frames 5 to 14.
        assert_eq!(host.edition(14, &[]), 0);
        host.quiet_ticks(9);
        let stops: Vec<u8> = (2..=4).flat_map(|i| event_with(&[], &device(i), 0, 0)).collect();
        assert_eq!(host.tick(), stops, "frame 14");
    });
    both(|host| {
        host.add(-60, -80, 1, 0xFF, 4, &ADDRESS);
        host.packet(&DEVICE, &[], -60);
        assert_eq!(host.edition(13, &[0xAA]), 0);
        host.quiet_ticks(9);
        assert_eq!(host.tick(), event(&DEVICE, 0, 0), "frame 12, before the edition");
    });
}

/// A displaced pair's stop event and the start event have the packet's edition.
#[test]
fn a_full_table() {
    both(|host| {
        let device = |i: u8| reference::state::Device { kind: 0, address: [i, 1, 1, 1, 1, 1] };
        host.add(-90, -100, 60, 0xFF, 1, &FLAGS);
        for i in 0..64 {
            host.packet(&device(i), &DATA, -70);
        }
        assert_eq!(host.edition(66, &[7]), 0);
        let expected = [
            event_with(&[7], &device(0), 0, 0),
            event_with(&[7], &device(64), 0, 1),
            report(&device(64), &DATA, -60),
        ];
        assert_eq!(host.packet(&device(64), &DATA, -60), expected.concat());
    });
}

/// Commands that fail, refused frames and frames that write nothing.
#[test]
fn every_executed_frame_counts() {
    both(|host| {
        assert_eq!(host.edition(2, &[0xAA]), 0);
        host.quiet_ticks(1);
        assert_eq!(host.give(&octets("0304000000")), Err(2));
        assert_eq!(host.engine.state().prefix(), PREFIX);
        assert_eq!(host.command(&[0x05, 7]), [0x12, 0x05]);
        assert_eq!(host.engine.state().prefix(), [0xAA]);
    });
}

fn text(host: &Host) -> String {
    String::from_utf8(host.image()).unwrap()
}

/// An image before an addition, between it and its number, and from its number on. AF does not count the lines.
#[test]
fn images() {
    both(|host| {
        assert_eq!(text(host), format!("A000000000001EFC024D53\n{FIRST}AF0000\n"));
        assert_eq!(host.edition(3, &[0xAA]), 0);
        let lines = format!("{FIRST}A40300000001AA\n");
        assert_eq!(text(host), format!("A000000000001EFC024D53\n{lines}AF0000\n"));
        host.quiet_ticks(2);
        let between = format!("A002000000001EFC024D53\n{lines}AF0000\n");
        assert_eq!(text(host), between, "an edition from position + 1 is not yet in A0");
        host.engine.restore(between.as_bytes()).unwrap();
        assert_eq!(text(host), between);
        refused(host, 3, &[0xBB], 14);
        host.quiet_ticks(1);
        assert_eq!(text(host), format!("A003000000001EFC01AA\n{lines}AF0000\n"));
        // One whose number is never reached.
        assert_eq!(host.edition(u32::MAX, &[]), 0);
        host.quiet_ticks(20);
        let lines = format!("{lines}A4FFFFFFFF00\n");
        assert_eq!(text(host), format!("A017000000001EFC01AA\n{lines}AF0000\n"));
        assert_eq!(host.command(&[0x00]), features(&[0xAA]));
    });
}

#[test]
fn texts_that_are_no_images() {
    let head = "A005000000001EFC024D53\n";
    let rows = [
        (format!("{head}{FIRST}AF0000\n"), true, "one edition"),
        (format!("{head}AF0000\n"), false, "before request T-12"),
        (format!("{head}A401000000024D53\nAF0000\n"), false, "the first not from 0"),
        (format!("{head}A40000000001AA\nAF0000\n"), false, "A0 with another prefix"),
        (format!("{head}{FIRST}{FIRST}AF0000\n"), false, "an edition twice"),
        (format!("{head}{FIRST}A40600000001AA\nAF0000\n"), true, "one to come"),
        (format!("{head}{FIRST}A40500000001AA\nAF0000\n"), false, "in force at the position, not in A0"),
        ("A005000000001EFC01AA\n".to_string() + FIRST + "A40500000001AA\nAF0000\n", true, "in force"),
        (
            "A005000000001EFC01AA\n".to_string() + FIRST + "A40600000001AA\nAF0000\n",
            false,
            "not yet in force",
        ),
        (format!("{head}{FIRST}A40100000001AA\nA402000000024D53\nAF0000\n"), true, "passed ones"),
        (format!("{head}{FIRST}A40700000001AA\nA40600000001BB\nAF0000\n"), false, "falling"),
        (format!("{head}{FIRST}A40600000001AA\nA40600000001BB\nAF0000\n"), false, "equal"),
        (format!("{head}{FIRST}A40600000002AA\nAF0000\n"), false, "an octet less than its length"),
        (format!("{head}{FIRST}A40600000000AA\nAF0000\n"), false, "an octet more"),
        (format!("{FIRST}{head}AF0000\n"), false, "before A0"),
        (format!("{head}A100C4B00300040700060504030201\n{FIRST}AF0100\n"), false, "behind A1"),
        (format!("{head}{FIRST}A100C4B00300040700060504030201\nAF0100\n"), true, "before A1"),
        (format!("{head}{FIRST}AF0100\n"), false, "counted in AF"),
        (format!("{head}{FIRST}AF000001\n"), false, "counted in AF, a third octet"),
        (format!("{head}{FIRST}A40600000020{}\nAF0000\n", "11".repeat(32)), true, "32 octets"),
        (format!("{head}{FIRST}A40600000021{}\nAF0000\n", "11".repeat(33)), false, "33 octets"),
    ];
    for (image, taken, words) in rows {
        both(|host| {
            assert_eq!(host.engine.restore(image.as_bytes()).is_ok(), taken, "{words}");
            match taken {
                true => assert_eq!(text(host), image, "{words}"),
                false => assert_eq!(host.engine.state(), State::blank()),
            }
        });
    }
    let editions = |count: u32| -> String {
        (1..count).map(|from| format!("A4{:08X}00\n", (from + 5).swap_bytes())).collect()
    };
    for (count, taken) in [(32, true), (33, false)] {
        let image = format!("{head}{FIRST}{}AF0000\n", editions(count));
        both(|host| assert_eq!(host.engine.restore(image.as_bytes()).is_ok(), taken, "{count}"));
    }
}

/// A start and a refused image leave one edition.
#[test]
fn started_anew() {
    both(|host| {
        assert_eq!(host.edition(3, &[0xAA]), 0);
        host.engine.start(OPCODE, &PREFIX).unwrap();
        assert_eq!(text(host), format!("A000000000001EFC024D53\n{FIRST}AF0000\n"));
        assert_eq!(host.edition(3, &[0xAA]), 0);
        host.engine.restore(b"").unwrap_err();
        assert_eq!(text(host), "A0000000000000FC00\nA40000000000\nAF0000\n");
        assert_eq!(host.edition(1, &[0xBB]), 0);
    });
}

/// At the last numbers.
#[test]
fn the_last_number() {
    both(|host| {
        let image = format!("A0FDFFFFFF001EFC024D53\n{FIRST}AF0000\n");
        host.engine.restore(image.as_bytes()).unwrap();
        host.next = u32::MAX - 1;
        refused(host, u32::MAX - 2, &[1], 14);
        assert_eq!(host.edition(u32::MAX, &[1]), 0);
        refused(host, u32::MAX, &[2], 14);
        assert_eq!(host.command(&[0x00]), features(&PREFIX));
        let last = frames::frame(1, u32::MAX, &frames::command(OPCODE, &[0x00]));
        assert_eq!(host.give(&last).unwrap()[5..], features(&[1]));
        refused(host, u32::MAX, &[2], 14);
        refused(host, 0, &[2], 14);
    });
}
