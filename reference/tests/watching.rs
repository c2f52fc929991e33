//! Both sides of the edges of watching, reports, stops and windows. Written by hand.

mod common;

use common::*;
use reference::state::Device;

const ONE: Device = Device { kind: 1, address: [1, 1, 1, 1, 1, 1] };
const FLAGS: [u8; 5] = [1, 3, 0x01, 0, 0x06];
const DATA: [u8; 3] = [2, 1, 6];

#[test]
fn sixty_four_pairs() {
    both(|host| {
        for _ in 0..15 {
            host.add(-60, -80, 1, 0, 1, &FLAGS);
        }
        let device = |i: u8| Device { kind: 0, address: [i; 6] };
        for i in 0..4 {
            assert_eq!(host.packet(&device(i), &DATA, 0).len(), 15 * 14 + 17);
        }
        // 60 pairs: the next packet has room for the starts of handles 0 to 3.
        let four: Vec<u8> = (0..4).flat_map(|h| event(&device(9), h, 1)).collect();
        assert_eq!(host.packet(&device(9), &DATA, 0), [four, report(&device(9), &DATA, 0)].concat());
        assert!(host.image().ends_with(b"AF0F40\n"));
        // None is weaker.
        assert_eq!(host.packet(&device(10), &DATA, 0), report(&device(10), &DATA, 0));
        assert_eq!(host.packet(&device(9), &DATA, 0), report(&device(9), &DATA, 0));
        // Cancelling makes room and writes no stop event: handle 0 had 5 pairs.
        assert_eq!(host.command(&[0x04, 0]), [0x00, 0x04]);
        assert!(host.image().ends_with(b"AF0E3B\n"));
        let five: Vec<u8> = (1..6).flat_map(|h| event(&device(11), h, 1)).collect();
        assert_eq!(host.packet(&device(11), &DATA, 0), [five, report(&device(11), &DATA, 0)].concat());
        // The tick that ends them writes the stops in the order they started.
        host.quiet_ticks(9);
        let stops = host.tick();
        assert_eq!(stops.len(), 64 * 14);
        assert_eq!(stops[..14], event(&device(0), 1, 0));
        assert_eq!(stops[63 * 14..], event(&device(11), 5, 0));
        assert!(host.image().ends_with(b"AF0E00\n"));
    });
}

#[test]
fn reports_of_packets() {
    both(|host| {
        host.add(-60, -80, 1, 0, 1, &FLAGS);
        host.add(-60, -80, 1, 0xFF, 4, &[1, 1, 1, 1, 1, 1, 1]);
        host.add(-50, -80, 1, 5, 4, &[1, 1, 1, 1, 1, 1, 1]);
        // Filter off: one report for every packet, matching or not.
        assert_eq!(host.packet(&DEVICE, &[], 0), report(&DEVICE, &[], 0));
        host.command(&[0x05, 1]);
        assert_eq!(host.packet(&DEVICE, &[], 0), []);
        assert_eq!(host.packet(&DEVICE, &DATA, -61), []);
        // A start with sampling 0xFF is reported, later packets are not.
        assert_eq!(host.packet(&ONE, &[], -60), [event(&ONE, 1, 1), report(&ONE, &[], -60)].concat());
        assert_eq!(host.packet(&ONE, &[], -60), []);
        // A start with sampling 5 is reported too; two monitors share one report.
        assert_eq!(
            host.packet(&ONE, &DATA, -50),
            [event(&ONE, 0, 1), event(&ONE, 2, 1), report(&ONE, &DATA, -50)].concat()
        );
        // Sampling 0 under watch: every matching packet, low ones too.
        assert_eq!(host.packet(&ONE, &DATA, -127), report(&ONE, &DATA, -127));
        assert_eq!(host.packet(&ONE, &[], -50), []);
        host.command(&[0x05, 0]);
        assert_eq!(host.packet(&ONE, &[], -50), report(&ONE, &[], -50));
    });
}

#[test]
fn only_matching_packets_count() {
    both(|host| {
        host.add(-60, -80, 1, 0, 1, &FLAGS);
        host.packet(&DEVICE, &DATA, 0);
        host.quiet_ticks(9);
        // Strong, of the device, but without the flags; and of the address with the other type.
        host.packet(&DEVICE, &[], 0);
        host.packet(&Device { kind: 1, ..DEVICE }, &DATA, -70);
        assert_eq!(host.tick(), event(&DEVICE, 0, 0));
        // The next strong one starts it again.
        let again = host.packet(&DEVICE, &DATA, -60);
        assert_eq!(again, [event(&DEVICE, 0, 1), report(&DEVICE, &DATA, -60)].concat());
    });
}

#[test]
fn windows() {
    both(|host| {
        host.add(-60, -80, 1, 3, 4, &ADDRESS);
        host.command(&[0x05, 1]);
        host.packet(&DEVICE, &[1], -60);
        // The start packet is in no window: the first window is empty.
        host.quiet_ticks(3);
        // Good packets do not shift the windows; low ones are in the mean; the latest is reported.
        host.packet(&DEVICE, &[2], -60);
        host.quiet_ticks(2);
        host.packet(&DEVICE, &[3, 4], -91);
        assert_eq!(host.tick(), report(&DEVICE, &[3, 4], -76));
        // Last good packet was 3 ticks ago: 7 more end it. Filter off: windows run, gather and are emptied.
        host.command(&[0x05, 0]);
        assert_eq!(host.packet(&DEVICE, &[5], -90), report(&DEVICE, &[5], -90));
        host.quiet_ticks(3);
        host.packet(&DEVICE, &[6], -90);
        host.command(&[0x05, 1]);
        host.quiet_ticks(2);
        // What was gathered while the filter was off is reported by a window that closes while it is on.
        assert_eq!(host.tick(), report(&DEVICE, &[6], -90));
        assert_eq!(host.packet(&DEVICE, &[7], -90), []);
        assert_eq!(host.tick(), event(&DEVICE, 0, 0), "a stop event and no report");
    });
}

#[test]
fn a_stop_where_a_window_closes() {
    both(|host| {
        host.add(-60, -80, 1, 10, 4, &ADDRESS);
        host.command(&[0x05, 1]);
        host.packet(&DEVICE, &[1], -60);
        host.packet(&DEVICE, &[2], -80);
        host.quiet_ticks(9);
        assert_eq!(host.tick(), event(&DEVICE, 0, 0));
    });
    both(|host| {
        host.add(-60, -80, 1, 9, 4, &ADDRESS);
        host.command(&[0x05, 1]);
        host.packet(&DEVICE, &[1], -60);
        host.packet(&DEVICE, &[2], -80);
        host.quiet_ticks(8);
        assert_eq!(host.tick(), report(&DEVICE, &[2], -80));
        assert_eq!(host.tick(), event(&DEVICE, 0, 0));
    });
}

#[test]
fn two_monitors_have_their_own_windows() {
    both(|host| {
        host.add(-60, -80, 1, 2, 4, &ADDRESS);
        host.add(-50, -80, 1, 3, 4, &ADDRESS);
        host.command(&[0x05, 1]);
        host.packet(&DEVICE, &[], -60);
        host.packet(&DEVICE, &[], -50);
        // Handle 0: the second packet is in its window; handle 1 started with it.
        host.packet(&DEVICE, &[9], -70);
        host.quiet_ticks(1);
        assert_eq!(host.tick(), report(&DEVICE, &[9], -60));
        assert_eq!(host.tick(), report(&DEVICE, &[9], -70));
    });
}

#[test]
fn ticks_take_pairs_in_start_order() {
    both(|host| {
        host.add(-50, -80, 1, 0, 4, &ADDRESS);
        host.add(-60, -80, 1, 0, 4, &ADDRESS);
        host.packet(&DEVICE, &[], -55);
        host.packet(&DEVICE, &[], -50);
        host.quiet_ticks(9);
        assert_eq!(host.tick(), [event(&DEVICE, 1, 0), event(&DEVICE, 0, 0)].concat());
    });
}

#[test]
fn cancelled_monitors_are_forgotten() {
    both(|host| {
        host.add(-60, -80, 1, 5, 4, &ADDRESS);
        host.command(&[0x05, 1]);
        host.packet(&DEVICE, &[], 0);
        host.packet(&DEVICE, &[], -70);
        assert_eq!(host.command(&[0x04, 0]), [0x00, 0x04]);
        assert_eq!(host.add(-60, -80, 1, 5, 4, &ADDRESS), [0x00, 0x03, 0]);
        assert!(host.image().ends_with(b"AF0100\n"));
        assert_eq!(host.packet(&DEVICE, &[], -61), [], "not under watch, no start");
        assert_eq!(
            host.packet(&DEVICE, &[], -60),
            [event(&DEVICE, 0, 1), report(&DEVICE, &[], -60)].concat()
        );
        host.quiet_ticks(9);
        assert_eq!(host.tick(), event(&DEVICE, 0, 0));
    });
}
