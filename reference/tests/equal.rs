//! Document 02, T-01: equal thresholds, both sides of each edge. Written by hand.

mod common;

use common::*;

#[test]
fn accepted_and_refused() {
    both(|host| {
        for (handle, shared) in [(0, -60), (1, 20), (2, -127), (3, 0)] {
            assert_eq!(host.add(shared, shared, 1, 0, 4, &ADDRESS), [0x00, 0x03, handle]);
        }
        for (high, low) in [(-61, -60), (19, 20), (-127, -126), (21, 21), (-128, -128)] {
            assert_eq!(host.add(high, low, 1, 0, 4, &ADDRESS), [0x12, 0x03, 0], "{high} {low}");
        }
        // Low above high comes before the interval and the type; all are 0x12.
        assert_eq!(host.add(-61, -60, 61, 0, 9, &ADDRESS), [0x12, 0x03, 0]);
    });
}

/// A start at the shared value counts as good; the next packet there is low and does not restart the run.
#[test]
fn the_shared_value() {
    for shared in [-60, 20, -127] {
        both(|host| {
            host.add(shared, shared, 1, 0, 4, &ADDRESS);
            host.command(&[0x05, 1]);
            if shared > -127 {
                assert_eq!(host.packet(&DEVICE, &[], shared - 1), []);
            }
            let start = [event(&DEVICE, 0, 1), report(&DEVICE, &[], shared)].concat();
            assert_eq!(host.packet(&DEVICE, &[], shared), start);
            host.quiet_ticks(5);
            assert_eq!(host.packet(&DEVICE, &[1], shared), report(&DEVICE, &[1], shared), "under watch");
            host.quiet_ticks(4);
            assert_eq!(host.tick(), event(&DEVICE, 0, 0), "10 ticks after the start, not one earlier");
            assert_eq!(host.packet(&DEVICE, &[], shared), start);
        });
    }
}

/// One above the shared value restarts the run.
#[test]
fn above_the_shared_value() {
    both(|host| {
        host.add(-60, -60, 1, 0xFF, 4, &ADDRESS);
        host.command(&[0x05, 1]);
        host.packet(&DEVICE, &[], -60);
        host.quiet_ticks(9);
        assert_eq!(host.packet(&DEVICE, &[], -59), []);
        host.quiet_ticks(5);
        assert_eq!(host.packet(&DEVICE, &[], -60), []);
        host.quiet_ticks(4);
        assert_eq!(host.tick(), event(&DEVICE, 0, 0));
    });
}

/// Linux's default monitor: -127 and -127, 60 seconds, sampling 0. 600 ticks after the start, whatever comes
/// at -127; a packet at -126 begins the run anew.
#[test]
fn the_default_monitor_of_linux() {
    both(|host| {
        assert_eq!(host.add(-127, -127, 60, 0, 1, &[1, 3, 1, 0, 6]), [0x00, 0x03, 0]);
        host.command(&[0x05, 1]);
        let data = [2, 1, 6];
        let seen = |rssi| report(&DEVICE, &data, rssi);
        assert_eq!(host.packet(&DEVICE, &data, -127), [event(&DEVICE, 0, 1), seen(-127)].concat());
        host.quiet_ticks(300);
        assert_eq!(host.packet(&DEVICE, &data, -127), seen(-127));
        host.quiet_ticks(299);
        assert_eq!(host.tick(), event(&DEVICE, 0, 0));
        assert_eq!(host.packet(&DEVICE, &data, -126), [event(&DEVICE, 0, 1), seen(-126)].concat());
        host.quiet_ticks(599);
        assert_eq!(host.packet(&DEVICE, &data, -126), seen(-126));
        host.quiet_ticks(599);
        assert_eq!(host.tick(), event(&DEVICE, 0, 0));
    });
}

/// An image with an equal monitor and its pair is restored, and the run goes on.
#[test]
fn over_a_failover() {
    both(|host| {
        host.add(-60, -60, 1, 2, 4, &ADDRESS);
        host.command(&[0x05, 1]);
        host.packet(&DEVICE, &[], -60);
        host.quiet_ticks(3);
        let image = host.image();
        assert!(String::from_utf8_lossy(&image).contains("A100C4C40102040700060504030201\n"));
        host.engine.restore(&image).unwrap();
        assert_eq!(host.packet(&DEVICE, &[7], -60), []);
        assert_eq!(host.tick(), report(&DEVICE, &[7], -60));
        host.quiet_ticks(5);
        assert_eq!(host.tick(), event(&DEVICE, 0, 0));
    });
}
