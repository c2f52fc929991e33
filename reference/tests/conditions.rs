//! Document 01, "Conditions": vectors worked out by hand, and source document 000's pattern example.

mod common;

use common::*;
use reference::condition::{form, matches, Form};
use reference::fault::Fault;
use reference::frame::Packet;

fn meets(kind: u8, condition: &str, data: &str) -> bool {
    let condition = octets(condition);
    assert_eq!(form(kind, &condition), Form::WellFormed, "{condition:02X?}");
    let packet = Packet { event_type: 0, device: DEVICE, data: octets(data), scan: None, rssi: 0 };
    matches(kind, &condition, &packet, Fault::None)
}

/// Source document 000's appendix: two patterns, packets A to D: pass, pass, pass, fail. Given as a
/// command with its thresholds 1 and -50, interval 5, sampling 0xFF, and packets at 1 dBm.
#[test]
fn pattern_example_of_000() {
    both(|host| {
        let command = octets("03 01 CE 05 FF 01 02 03 01 00 01 06 FF 00 00 06 FF FF");
        assert_eq!(host.command(&command), [0x00, 0x03, 0]);
        host.command(&[0x05, 1]);
        let packets = [
            ("02 01 01 07 09 54 61 62 6C 65 74 05 FF 00 06 FF FF", true),
            ("02 01 01 07 09 54 61 62 6C 65 74 04 FF 00 06 FF", true),
            ("07 09 54 61 62 6C 65 74 05 FF 00 06 FF FF", true),
            ("02 01 02 05 FF 00 06 FF 01", false),
        ];
        for (i, (data, pass)) in packets.into_iter().enumerate() {
            let device = reference::state::Device { kind: 0, address: [i as u8; 6] };
            let answer = host.packet(&device, &octets(data), 1);
            let started = [event(&device, 0, 1), report(&device, &octets(data), 1)].concat();
            assert_eq!(answer, if pass { started } else { vec![] }, "packet {i}");
        }
    });
}

#[test]
fn patterns() {
    let rows = [
        // One octet of flags.
        ("01 03 01 00 06", "020106", true),
        ("01 03 01 00 06", "020105", false),
        ("01 03 01 00 06", "", false),
        ("01 03 01 00 06", "020206", false),
        ("01 03 01 00 06", "03010600", true),
        // Offset 0 is the first octet after the AD type.
        ("01 03 09 00 41", "0409414243", true),
        ("01 03 09 01 41", "0409414243", false),
        ("01 03 09 01 42", "0409414243", true),
        ("01 03 09 02 43", "0409414243", true),
        ("01 03 09 03 43", "0409414243", false),
        ("01 04 09 02 4300", "0409414243", false),
        ("01 04 09 01 4243", "0409414243", true),
        ("01 03 09 00 09", "0409414243", false),
        ("01 03 09 FF 00", "0409414243", false),
        // Longer than any structure.
        ("01 06 09 00 41424344", "0409414243", false),
        ("01 05 09 00 414243", "0409414243", true),
        // Some structure of that type: the second.
        ("01 03 09 00 42", "020941 020942", true),
        ("01 03 09 01 42", "020941 03094142", true),
        // Not across two structures.
        ("01 04 09 00 4142", "020941 020942", false),
        // Length 1 has no octets after its type; type inside another's content is no type.
        ("01 03 09 00 42", "0109 020942", true),
        ("01 03 09 00 42", "0109", false),
        ("01 03 09 00 42", "04FF020942", false),
        // Length 0 ends the list, earlier ones count.
        ("01 03 09 00 42", "00 020942", false),
        ("01 03 09 00 42", "020942 00", true),
        ("01 03 09 00 42", "020942 00 020943", true),
        // A structure past the end is not matched in part, earlier ones count.
        ("01 03 09 00 42", "030942", false),
        ("01 03 09 00 42", "FF0942", false),
        ("01 03 09 00 42", "020942 FF09", true),
        ("01 03 09 00 42", "020942 1E", true),
        ("01 03 09 00 42", "1F", false),
        // The longest: 30 octets in one structure, and one that says 31.
        ("01 03 09 1D 07", "1E09 00000000000000000000000000000000000000000000000000000000 07", false),
        ("01 03 09 1C 07", "1E09 00000000000000000000000000000000000000000000000000000000 07", true),
        ("01 03 09 1C 07", "1F09 00000000000000000000000000000000000000000000000000000000 07", false),
        // One matching pattern is enough.
        ("02 03 01 00 05 03 01 00 06", "020106", true),
        ("02 03 01 00 06 03 09 00 42", "020106", true),
        ("02 03 01 00 05 03 09 00 42", "020106", false),
    ];
    for (condition, data, expected) in rows {
        assert_eq!(meets(1, condition, data), expected, "{condition} on {data}");
    }
}

#[test]
fn uuids() {
    let rows = [
        ("01 1218", "03021218", true),
        ("01 1218", "03031218", true),
        ("01 1218", "03041218", false),
        ("01 1218", "03011218", false),
        ("01 1218", "03161218", false),
        ("01 1218", "03031812", false),
        ("01 1218", "0503FFFF1218", true),
        ("01 1218", "0503FF1218FF", false),
        ("01 1218", "0403FF1218", false),
        ("01 1218", "04031218FF", true),
        ("01 1218", "020312", false),
        ("01 1218", "0103", false),
        ("01 1218", "", false),
        ("01 1218", "0303FFFF 03021218", true),
        ("01 1218", "0303FFFF 00 03021218", false),
        ("01 1218", "04031218", false),
        ("02 12180102", "050412180102", true),
        ("02 12180102", "050512180102", true),
        ("02 12180102", "050312180102", false),
        ("02 12180102", "0705FFFF12180102", false),
        ("02 12180102", "0905FFFFFFFF12180102", true),
        ("02 12180102", "0405121801", false),
        ("03 000102030405060708090A0B0C0D0E0F", "1106 000102030405060708090A0B0C0D0E0F", true),
        ("03 000102030405060708090A0B0C0D0E0F", "1107 000102030405060708090A0B0C0D0E0F", true),
        ("03 000102030405060708090A0B0C0D0E0F", "1107 0F0E0D0C0B0A09080706050403020100", false),
        ("03 000102030405060708090A0B0C0D0E0F", "1207 FF000102030405060708090A0B0C0D0E0F", false),
        ("03 000102030405060708090A0B0C0D0E0F", "1007 000102030405060708090A0B0C0D0E", false),
        ("03 000102030405060708090A0B0C0D0E0F", "1105 000102030405060708090A0B0C0D0E0F", false),
    ];
    for (condition, data, expected) in rows {
        assert_eq!(meets(2, condition, data), expected, "{condition} on {data}");
    }
}

#[test]
fn addresses() {
    assert!(meets(4, "00 060504030201", ""));
    assert!(!meets(4, "01 060504030201", ""));
    assert!(!meets(4, "00 010203040506", ""));
    assert!(!meets(4, "00 060504030202", "020106"));
}

#[test]
fn forms() {
    let rows = [
        (0, "", Form::NoType),
        (5, "", Form::NoType),
        (3, "", Form::Malformed),
        (3, "00112233445566778899AABBCCDDEE", Form::Malformed),
        (3, "00112233445566778899AABBCCDDEEFF", Form::WellFormed),
        (3, "00112233445566778899AABBCCDDEEFF00", Form::Malformed),
        (1, "", Form::Malformed),
        (1, "00", Form::Malformed),
        (1, "01", Form::Malformed),
        (1, "01 02 01 00", Form::Malformed),
        (1, "01 03 01 00", Form::Malformed),
        (1, "01 03 01 00 06", Form::WellFormed),
        (1, "01 03 01 00 06 00", Form::Malformed),
        (1, "02 03 01 00 06", Form::Malformed),
        (1, "02 03 01 00 06 03 01 00 06", Form::WellFormed),
        (1, "01 03 01 00 06 03 01 00 06", Form::Malformed),
        (1, "01 00", Form::Malformed),
        (2, "01", Form::Malformed),
        (2, "01 1218", Form::WellFormed),
        (2, "01 121800", Form::Malformed),
        (2, "02 12180000", Form::WellFormed),
        (2, "03 00112233445566778899AABBCCDDEEFF", Form::WellFormed),
        (2, "04 1218", Form::Malformed),
        (2, "00 1218", Form::Malformed),
        (4, "00 060504030201", Form::WellFormed),
        (4, "01 060504030201", Form::WellFormed),
        (4, "02 060504030201", Form::Malformed),
        (4, "00 0605040302", Form::Malformed),
        (4, "00 06050403020100", Form::Malformed),
    ];
    for (kind, condition, expected) in rows {
        assert_eq!(form(kind, &octets(condition)), expected, "type {kind}: {condition}");
    }
}
