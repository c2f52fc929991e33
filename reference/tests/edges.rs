//! Both sides of the other edges: lines, refusals, commands, replay. Written by hand.

mod common;

use common::*;
use reference::engine::write_line;
use reference::fault::Fault;
use reference::limits::{Seconds, Ticks};
use reference::state::State;

#[test]
fn units() {
    assert_eq!(Seconds(1).ticks(), Ticks(10));
    assert_eq!(Seconds(60).ticks(), Ticks(600));
}

#[test]
fn settings() {
    both(|host| {
        for (opcode, length, refused) in
            [(0xFC00, 32, false), (0xFFFF, 0, false), (0xFBFF, 0, true), (0xFC00, 33, true), (0, 0, true)]
        {
            let prefix = vec![7; length];
            assert_eq!(host.engine.start(opcode, &prefix).is_err(), refused);
            let expected = if refused { State::blank() } else { State::fresh(opcode, &prefix) };
            assert_eq!(host.engine.state(), expected);
        }
        assert_eq!(host.engine.start(0xFBFF, &[]).unwrap_err().number(), 9);
        assert_eq!(host.image(), b"A0000000000000FC00\nA40000000000\nAF0000\n");
    });
}

#[test]
fn lent_outputs() {
    both(|host| {
        assert_eq!(host.give_lending(&octets("0301000000"), 2879), Err(3));
        assert_eq!(host.give_lending(&octets("00"), 2879), Err(3), "3 before 4");
        assert_eq!(host.give_lending(&octets("0300000000"), 0), Err(3), "3 before 1");
        assert_eq!(host.give_lending(&octets("0301000000"), 2880), Ok(vec![]));
        assert_eq!(host.engine.save(&mut [0; 13161]).unwrap_err().number(), 3);
        assert!(host.engine.save(&mut [0; 13162]).is_ok());
    });
    let frame = octets("0301000000");
    assert_eq!(write_line(&frame, &mut [0; 526], Fault::None).unwrap_err().number(), 3);
    assert_eq!(write_line(&[], &mut [0; 526], Fault::None).unwrap_err().number(), 3);
    let mut out = [0x77; 527];
    assert_eq!(write_line(&frame, &mut out, Fault::None), Ok(11));
    assert_eq!(out[..12], *b"0301000000\n\x77");
    for (length, kind, refused) in [
        (4, 1, true),
        (5, 1, false),
        (263, 3, false),
        (264, 1, true),
        (5, 0, true),
        (5, 3, false),
        (5, 4, false),
        (5, 5, true),
    ] {
        let mut frame = vec![0xAB; length];
        frame[0] = kind;
        let written = write_line(&frame, &mut [0; 527], Fault::None);
        assert_eq!(written.map_err(|r| r.number()), if refused { Err(4) } else { Ok(2 * length + 1) });
    }
}

#[test]
fn not_a_line() {
    both(|host| {
        host.tick();
        for text in [
            &b""[..],
            b"\n",
            b"0302000000",
            b"0302000000\r\n",
            b"0302000000\n\n",
            b"03020000 00\n",
            b" 0302000000\n",
            b"030200000\n",
            b"03020000000\n",
            b"0302000\n000\n",
            b"03020000\n",
            b"030200000G\n",
            b"030200000:\n",
            b"030200000@\n",
            b"030200000/\n",
            b"0002000000\n",
            b"0502000000\n",
            b"0000000000\n",
            b"FF02000000\n",
            b"01020000001efc0105\n",
        ] {
            assert_eq!(host.give_line(text), Err(4), "{:?}", String::from_utf8_lossy(text));
        }
        for frame in ["", "03", "03020000", "0000000000", "0501000000"] {
            assert_eq!(host.give(&octets(frame)), Err(4));
        }
        // Over 263 octets is 4 though the number be seen; 263 are not too many.
        let mut long = octets("01000000001EFCFF");
        long.resize(264, 0);
        assert_eq!(host.give(&long), Err(4));
        long.truncate(263);
        assert_eq!(host.give(&long), Err(1));
        long[1] = 2;
        assert_eq!(host.give(&long), Ok(octets("0E05011EFC1200")));
        assert_eq!(host.give_line(b"0303000000\n"), Ok(vec![]));
    });
}

#[test]
fn payloads() {
    both(|host| {
        let refused = [
            // Packets: short, long, n not fitting, event type 4, address type 2, n 32, RSSI 21, 127, -128.
            "0201000000",
            "020100000000 00 060504030201 00",
            "020100000000 00 060504030201 00 C4 00",
            "020100000000 00 060504030201 01 C4",
            "020100000004 00 060504030201 00 C4",
            "020100000000 02 060504030201 00 C4",
            "020100000000 00 060504030201 20 00000000000000000000000000000000 00000000000000000000000000000000 C4",
            "020100000000 00 060504030201 00 15",
            "020100000000 00 060504030201 00 7F",
            "020100000000 00 060504030201 00 80",
            // A tick with a payload.
            "030100000000",
            // Commands: short, parameter length too small or great, no parameters; another opcode too.
            "0101000000",
            "01010000001EFC",
            "01010000001EFC00",
            "01010000001EFC0105 01",
            "01010000001EFC0305 01",
            "0101000000030C00",
            "0101000000030C0205",
        ];
        for frame in refused {
            assert_eq!(host.give(&octets(frame)), Err(5), "{frame}");
            let mut seen = octets(frame);
            seen[1] = 0;
            assert_eq!(host.give(&seen), Err(1), "1 before 5: {frame}");
            seen[1] = 2;
            assert_eq!(host.give(&seen), Err(2), "2 before 5: {frame}");
        }
        assert_eq!(host.give(&octets("0101000000030C0100")), Err(6), "HCI_Reset's opcode");
        assert_eq!(host.give(&octets("01010000001FFC0100")), Err(6));
        assert_eq!(host.give(&octets("01010000001EFD0100")), Err(6));
        let features = "0E10011EFC 00 00 0C04000000000000 02 4D53";
        assert_eq!(host.give(&octets("01010000001EFC0100")), Ok(octets(features)));
        for (frame, rssi) in
            [("0202000000 03 01 060504030201 00 81", -127), ("0203000000 03 01 060504030201 00 14", 20)]
        {
            let answer = host.give(&octets(frame)).unwrap();
            assert_eq!(answer, octets(&format!("3E0C0201 0301 060504030201 00 {:02X}", rssi as i8 as u8)));
        }
    });
}

#[test]
fn the_last_number() {
    both(|host| {
        let mut state = State::fresh(OPCODE, &PREFIX);
        state.position = u32::MAX - 1;
        host.engine.adopt(&state);
        assert_eq!(host.give(&octets("0300000000")), Err(1));
        assert_eq!(host.give(&octets("03FEFFFFFF")), Err(1));
        assert_eq!(host.give(&octets("03FFFFFFFF")), Ok(vec![]));
        for number in ["00000000", "01000000", "FEFFFFFF", "FFFFFFFF"] {
            assert_eq!(host.give(&octets(&format!("03{number}"))), Err(1));
        }
    });
}

#[test]
fn unsound_comes_first() {
    both(|host| {
        let mut state = State::fresh(OPCODE, &PREFIX);
        state.filter = 2;
        host.engine.adopt(&state);
        assert_eq!(host.give_lending(&[], 0), Err(7));
        assert_eq!(host.give(&octets("0301000000")), Err(7));
        assert_eq!(host.engine.save(&mut []).unwrap_err().number(), 7);
        assert_eq!(host.engine.state(), state);
    });
}

#[test]
fn command_returns() {
    both(|host| {
        let mut rows = vec![
            ("00", "0000 0C04000000000000 02 4D53"),
            ("0000", "1200"),
            ("04", "1204"),
            ("0400", "1204"),
            ("0410", "1204"),
            ("04FF", "1204"),
            ("040000", "1204"),
            ("05", "1205"),
            ("050100", "1205"),
            ("05FF", "1205"),
            ("01", "0101"),
            ("02C4B00300", "0102"),
            ("0E", "010E"),
            ("0F", "120F00"),
            ("10C4B00300", "0110"),
            ("FF0102", "01FF"),
            ("03", "120300"),
            ("03C4B00300", "120300"),
            ("03C4B0030000", "120300"),
            ("03C4B0030005 00060504030201", "120300"),
            ("03C4B0030003", "120300"),
            ("03C4B0030003 00060504030201", "120300"),
            ("03C4C5030003", "120300"),
            ("03C4B0000003", "120300"),
            ("03C4B03D0003", "120300"),
            ("0315B0030003", "120300"),
            ("03C480030003", "120300"),
            // Malformed: types 1, 2, 4.
            ("03C4B0030001", "120300"),
            ("03C4B0030001 00", "120300"),
            ("03C4B0030001 00 03010006", "120300"),
            ("03C4B0030001 01 020100", "120300"),
            ("03C4B0030001 01 03010006 00", "120300"),
            ("03C4B0030001 02 03010006", "120300"),
            ("03C4B0030001 01 04010006", "120300"),
            ("03C4B0030002", "120300"),
            ("03C4B0030002 00 1218", "120300"),
            ("03C4B0030002 04 1218", "120300"),
            ("03C4B0030002 01 12", "120300"),
            ("03C4B0030002 01 121800", "120300"),
            ("03C4B0030002 02 121800", "120300"),
            ("03C4B0030002 03 121800", "120300"),
            ("03C4B0030004", "120300"),
            ("03C4B0030004 000605040302", "120300"),
            ("03C4B0030004 0006050403020100", "120300"),
            ("03C4B0030004 02060504030201", "120300"),
        ];
        rows.extend([
            // Well formed; sampling has no forbidden value.
            ("03C4B0030001 01 03010006", "000300"),
            ("03C4B0030101 02 03FFFF06 0401000102", "000301"),
            ("03C4B003FE02 01 1218", "000302"),
            ("03C4B003FF02 02 12180000", "000303"),
            ("03C4B0037F02 03 000102030405060708090A0B0C0D0E0F", "000304"),
            ("03C4B0030004 01060504030201", "000305"),
        ]);
        for (parameters, returns) in rows {
            assert_eq!(host.command(&octets(parameters)), octets(returns), "{parameters}");
        }
    });
}

#[test]
fn long_conditions_and_sixteen_monitors() {
    both(|host| {
        let of_length = |length: usize| [&[1, length as u8 - 2, 0xFF, 0][..], &vec![7; length - 4]].concat();
        assert_eq!(host.add(-60, -80, 1, 0, 1, &of_length(64)), [0x00, 0x03, 0]);
        assert_eq!(host.add(-60, -80, 1, 0, 1, &of_length(65)), [0x07, 0x03, 0]);
        assert_eq!(host.add(-60, -80, 1, 0, 1, &of_length(249)), [0x07, 0x03, 0]);
        let mut malformed = of_length(65);
        malformed[0] = 2;
        assert_eq!(host.add(-60, -80, 1, 0, 1, &malformed), [0x12, 0x03, 0], "malformed before too long");
        for handle in 1..16 {
            assert_eq!(host.add(-60, -80, 1, 0, 4, &ADDRESS), [0x00, 0x03, handle]);
        }
        assert_eq!(host.add(-60, -80, 1, 0, 4, &ADDRESS), [0x07, 0x03, 0]);
        assert_eq!(host.add(-60, -80, 1, 0, 3, &[0; 16]), [0x07, 0x03, 0]);
        assert_eq!(host.add(-60, -80, 1, 0, 3, &[0; 15]), [0x12, 0x03, 0]);
        assert_eq!(host.add(-60, -80, 1, 0, 3, &[0; 65]), [0x12, 0x03, 0]);
        assert_eq!(host.add(-60, -80, 1, 0, 1, &malformed), [0x12, 0x03, 0]);
        assert_eq!(host.command(&[0x04, 15]), [0x00, 0x04]);
        assert_eq!(host.command(&[0x04, 16]), [0x12, 0x04]);
        assert_eq!(host.command(&[0x04, 15]), [0x12, 0x04]);
        assert_eq!(host.add(-60, -80, 1, 0, 4, &ADDRESS), [0x00, 0x03, 15]);
    });
}

#[test]
fn replay_skips_and_stops() {
    both(|host| {
        host.tick();
        let text = b"0301000000\n0100000000\n0302000000\n0303000000\n0303000000\n0305000000\n0304000000\n";
        let replayed = host.engine.replay(text);
        assert_eq!(replayed.answers, [[], []]);
        assert_eq!(replayed.refusal.unwrap().number(), 2);
        assert_eq!(host.engine.state().position, 3);
        let replayed = host.engine.replay(b"0304000000\n0305000000");
        assert_eq!((replayed.answers.len(), replayed.refusal), (1, None));
        assert_eq!(host.engine.replay(b"junk").refusal, None);
        // 4 before 1: kind 00 with a seen number stops replay.
        assert_eq!(host.engine.replay(b"0001000000\n").refusal.unwrap().number(), 4);
    });
}
