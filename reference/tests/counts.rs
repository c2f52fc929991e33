//! Document 02, T-11: a window's count fits 4 octets and its sum 8, so that no frame needs refusal 8. By hand.

mod common;

use common::*;

/// An image at this position, with a window of so many packets, each at this RSSI.
fn image(position: u32, packets: u32, rssi: i8) -> Vec<u8> {
    let mut head = vec![0xA0];
    head.extend(position.to_le_bytes());
    head.extend(octets("01 1EFC 02 4D53"));
    let monitor = octets("A1 00 C4 B0 3C 04 04 07 00060504030201");
    let mut pair = octets("A3 00 00 060504030201 0000 00");
    pair.extend(packets.to_le_bytes());
    pair.extend((rssi as i64 * packets as i64).to_le_bytes());
    pair.extend([rssi as u8, 0, 0]);
    let edition = octets("A4 00000000 02 4D53");
    [head, edition, monitor, pair, vec![0xAF, 1, 1]].iter().flat_map(|record| line(record)).collect()
}

#[test]
fn as_many_packets_as_the_position() {
    both(|host| {
        for (position, packets, taken) in [
            (9, 9, true),
            (9, 10, false),
            (u32::MAX - 1, u32::MAX - 1, true),
            (u32::MAX - 1, u32::MAX, false),
            (u32::MAX, u32::MAX, true),
        ] {
            let text = image(position, packets, -127);
            assert_eq!(host.engine.restore(&text).is_ok(), taken, "{packets} at {position}");
        }
    });
}

/// The fullest window takes one more packet, at either end of the sum; after it every number is seen.
#[test]
fn the_last_packet_of_the_fullest_window() {
    both(|host| {
        for rssi in [-127, 20] {
            let before = u32::MAX - 1;
            host.engine.restore(&image(before, before, rssi)).unwrap();
            let mut frame = octets("02FFFFFFFF 00 00 060504030201 00");
            frame.push(rssi as u8);
            assert_eq!(host.give(&frame), Ok(vec![]));
            let full = image(u32::MAX, u32::MAX, rssi);
            assert_eq!(host.image(), full);
            assert_eq!(host.give(&frame), Err(1));
            frame[1..5].fill(0);
            assert_eq!(host.give(&frame), Err(1));
            host.engine.restore(&full).unwrap();
        }
    });
}
