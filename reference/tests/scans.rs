//! Document 02, T-06: packets with a scan response, both sides of each edge. Written by hand.

mod common;

use common::*;
use reference::cases;
use reference::condition::{matches, sections, Text};
use reference::fault::{Fault, VECTOR_FAULTS};
use reference::frame::Packet;

const NAME: [u8; 5] = [1, 3, 0x09, 0, 0x41];

#[test]
fn forms() {
    both(|host| {
        let head = "0401000000";
        let texts = |n: usize, m: usize| format!("{n:02X}{}{m:02X}{}", "00".repeat(n), "00".repeat(m));
        let refused = [
            // Event types 1, 3 and 4; address type 2.
            format!("{head} 01 00 060504030201 {} C4", texts(0, 0)),
            format!("{head} 03 00 060504030201 {} C4", texts(0, 0)),
            format!("{head} 04 00 060504030201 {} C4", texts(0, 0)),
            format!("{head} 00 02 060504030201 {} C4", texts(0, 0)),
            // Texts of 32 octets.
            format!("{head} 00 00 060504030201 {} C4", texts(32, 0)),
            format!("{head} 00 00 060504030201 {} C4", texts(0, 32)),
            format!("{head} 00 00 060504030201 {} C4", texts(31, 32)),
            // RSSI 21, 127, -128; none; an octet more; a packet of kind 02; nothing.
            format!("{head} 00 00 060504030201 {} 15", texts(1, 1)),
            format!("{head} 00 00 060504030201 {} 7F", texts(1, 1)),
            format!("{head} 00 00 060504030201 {} 80", texts(1, 1)),
            format!("{head} 00 00 060504030201 {}", texts(1, 1)),
            format!("{head} 00 00 060504030201 {} C4 00", texts(1, 1)),
            format!("{head} 00 00 060504030201 00 C4"),
            head.to_string(),
        ];
        for frame in refused {
            assert_eq!(host.give(&octets(&frame)), Err(5), "{frame}");
            let mut seen = octets(&frame);
            seen[1] = 0;
            assert_eq!(host.give(&seen), Err(1), "1 before 5: {frame}");
        }
        assert_eq!(host.give(&octets("0501000000")), Err(4));
        for (n, m, event_type) in [(31, 31, 2), (0, 0, 0), (31, 0, 0), (0, 31, 2)] {
            let expected =
                [report_of(event_type, &DEVICE, &vec![0; n], -127), report_of(4, &DEVICE, &vec![0; m], -127)];
            assert_eq!(
                host.scanned(event_type, &DEVICE, &vec![0; n], &vec![0; m], -127),
                expected.concat(),
                "{n} {m}"
            );
        }
    });
}

fn meets(kind: u8, condition: &str, data: &str, scan: &str) -> bool {
    let packet =
        Packet { event_type: 0, device: DEVICE, data: octets(data), scan: Some(octets(scan)), rssi: 0 };
    matches(kind, &octets(condition), &packet, Fault::None)
}

#[test]
fn either_text() {
    let name = "01 03 09 00 41";
    let rows = [
        (1, name, "020941", "", true),
        (1, name, "", "020941", true),
        (1, name, "020941", "020941", true),
        (1, name, "", "", false),
        // The advertisement has such a structure that does not match: the scan response is looked at.
        (1, name, "020942", "020941", true),
        (1, name, "020942", "020943 020941", true),
        (1, name, "020942 020941", "020943", true),
        (1, name, "020942", "020943", false),
        // Each text ends its own list.
        (1, name, "00 020941", "020941", true),
        (1, name, "00", "020941", true),
        (1, name, "FF", "020941", true),
        (1, name, "020942", "00 020941", false),
        (1, name, "020942", "FF0941", false),
        // A structure that straddles the texts is none.
        (1, name, "0209", "41", false),
        (1, name, "02", "0941", false),
        (1, "01 04 09 00 4142", "020941", "020942", false),
        // Two patterns, one in each text.
        (1, "02 03 01 00 05 03 09 00 41", "020106", "020941", true),
        // UUIDs.
        (2, "01 1218", "0303FFFF", "03021218", true),
        (2, "01 1218", "", "0503FFFF1218", true),
        (2, "01 1218", "", "0503FF1218FF", false),
        (2, "01 1218", "020312", "020318", false),
        (2, "01 1218", "040312", "18", false),
        (2, "01 1218", "0303FF12", "030318FF", false),
    ];
    for (kind, condition, data, scan, expected) in rows {
        assert_eq!(meets(kind, condition, data, scan), expected, "{condition} on {data} and {scan}");
    }
    assert!(!meets(4, "00 060504030202", "", "0A09 00060504030201"), "an address is not looked for in texts");
}

/// The advertisement's structure comes first where both texts have one.
#[test]
fn the_advertisement_first() {
    let (data, scan) = (octets("020106 020941"), octets("020942 03090000"));
    let list = sections(&data, Some(&scan), Fault::None);
    let found: Vec<_> = list.iter().filter(|s| s.ad_type == 9).map(|s| (s.text, s.content)).collect();
    let expected =
        [(Text::Advertisement, &[0x41][..]), (Text::ScanResponse, &[0x42]), (Text::ScanResponse, &[0, 0])];
    assert_eq!(found, expected);
    assert_eq!(list[1].content.as_ptr(), data[5..].as_ptr(), "a part of the advertisement itself");
}

#[test]
fn vectors_notice_what_sessions_cannot() {
    for (fault, words) in VECTOR_FAULTS.iter().filter(|(fault, _)| *fault == Fault::ScanFirst) {
        let differs = |i| cases::sections_by(5, i, Fault::None) != cases::sections_by(5, i, *fault);
        assert!((0..200).filter(|i| differs(*i)).count() > 20, "{words}");
    }
}

#[test]
fn reports() {
    both(|host| {
        host.add(-60, -80, 1, 0, 1, &NAME);
        let (plain, named) = ([2, 1, 6], [2, 9, 0x41]);
        let two = |event_type, data: &[u8], scan: &[u8], rssi| {
            [report_of(event_type, &DEVICE, data, rssi), report_of(4, &DEVICE, scan, rssi)].concat()
        };
        // Filter off: two reports, matching or not, and for an empty scan response too.
        assert_eq!(host.scanned(2, &DEVICE, &plain, &[9], -60), two(2, &plain, &[9], -60));
        assert_eq!(host.scanned(0, &DEVICE, &[], &[], -60), two(0, &[], &[], -60));
        host.command(&[0x05, 1]);
        // Filter on: nothing without a match, two at a start, two under watch.
        assert_eq!(host.scanned(0, &DEVICE, &plain, &plain, -60), []);
        let started = [event(&DEVICE, 0, 1), two(0, &plain, &named, -60)].concat();
        assert_eq!(host.scanned(0, &DEVICE, &plain, &named, -60), started);
        assert_eq!(host.scanned(2, &DEVICE, &named, &[], -80), two(2, &named, &[], -80));
        assert_eq!(host.packet(&DEVICE, &named, -80), report(&DEVICE, &named, -80));
        // A match by the scan response alone is good: the run begins anew.
        host.quiet_ticks(9);
        assert_eq!(host.scanned(0, &DEVICE, &plain, &named, -79), two(0, &plain, &named, -79));
        host.quiet_ticks(9);
        assert_eq!(host.scanned(0, &DEVICE, &plain, &plain, -79), []);
        assert_eq!(host.tick(), event(&DEVICE, 0, 0));
    });
}

/// Sampling 0xFF: two reports at the start alone. A window keeps the advertisement and the packet's own event type.
#[test]
fn windows() {
    both(|host| {
        host.add(-60, -80, 1, 2, 1, &NAME);
        host.add(-60, -80, 1, 0xFF, 1, &NAME);
        host.command(&[0x05, 1]);
        let named = [2, 9, 0x41];
        let start = host.scanned(0, &DEVICE, &[1, 1], &named, -60);
        let both_reports = [report(&DEVICE, &[1, 1], -60), report_of(4, &DEVICE, &named, -60)].concat();
        assert_eq!(start, [event(&DEVICE, 0, 1), event(&DEVICE, 1, 1), both_reports].concat());
        assert_eq!(host.packet(&DEVICE, &named, -70), []);
        assert_eq!(host.scanned(2, &DEVICE, &[1, 7], &named, -71), []);
        host.quiet_ticks(1);
        let text = String::from_utf8(host.image()).unwrap();
        assert!(text.contains("02000000 73FFFFFFFFFFFFFF B9 02 02 0107".replace(' ', "").as_str()), "{text}");
        assert_eq!(host.tick(), report_of(2, &DEVICE, &[1, 7], -71), "one report, the mean of -70 and -71");
    });
}
