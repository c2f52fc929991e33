//! Document 02, T-05: a full table keeps the strongest, both sides of each edge. Written by hand.

mod common;

use common::*;
use reference::case::calls_of;
use reference::engine::Engine;
use reference::limits::PAIRS;
use reference::script;
use reference::state::Device;
use reference::timers::Timers;

const FLAGS: [u8; 5] = [1, 3, 0x01, 0, 0x06];
const NAME: [u8; 5] = [1, 3, 0x09, 0, 0x41];
/// Meets FLAGS; meets both.
const DATA: [u8; 3] = [2, 1, 6];
const BOTH: [u8; 6] = [2, 1, 6, 2, 9, 0x41];

fn device(i: u8) -> Device {
    Device { kind: 0, address: [i, 1, 2, 3, 4, 5] }
}

/// One monitor at -127 and -127, interval 60, sampling 0xFF, with so many pairs at -50, devices 0 up; filter on.
fn watching(host: &mut Host, pairs: u8) {
    host.add(-127, -127, 60, 0xFF, 1, &FLAGS);
    host.command(&[0x05, 1]);
    for i in 0..pairs {
        assert_eq!(host.packet(&device(i), &DATA, -50), started(i, 0, -50));
    }
}

fn started(i: u8, handle: u8, rssi: i8) -> Vec<u8> {
    [event(&device(i), handle, 1), report(&device(i), &DATA, rssi)].concat()
}

fn displaced(gone: u8, i: u8, handle: u8, rssi: i8) -> Vec<u8> {
    [event(&device(gone), handle, 0), started(i, handle, rssi)].concat()
}

fn pairs(host: &Host) -> Vec<String> {
    let text = String::from_utf8(host.image()).unwrap();
    text.lines().filter(|line| line.starts_with("A3")).map(|line| line[2..8].to_string()).collect()
}

#[test]
fn sixty_three_and_sixty_four() {
    both(|host| {
        watching(host, 63);
        assert_eq!(host.packet(&device(100), &DATA, -127), started(100, 0, -127), "the 64th has room");
        // The smallest is -127 now: equal does not displace, one above does.
        assert_eq!(host.packet(&device(101), &DATA, -127), []);
        assert_eq!(host.packet(&device(101), &DATA, -126), displaced(100, 101, 0, -126));
        assert_eq!(pairs(host).len(), 64);
    });
}

/// Equal to the smallest and one above; of two smallest the earlier started goes; the new one stands last.
#[test]
fn the_smallest_goes() {
    both(|host| {
        watching(host, 64);
        assert_eq!(host.packet(&device(7), &DATA, -60), []);
        assert_eq!(host.packet(&device(5), &DATA, -60), []);
        assert_eq!(host.packet(&device(70), &DATA, -60), [], "as strong as the smallest");
        assert_eq!(host.packet(&device(70), &DATA, -59), displaced(5, 70, 0, -59));
        assert_eq!(host.packet(&device(71), &DATA, -59), displaced(7, 71, 0, -59));
        assert_eq!(host.packet(&device(72), &DATA, -59), [], "the smallest is -59 now");
        let held = pairs(host);
        assert_eq!(held[62..], ["000046", "000047"], "the last two are devices 70 and 71");
        assert_eq!(held[4..6], ["000004", "000006"]);
        // A displaced device is not under watch: its next packet starts it again, displacing the earlier of -59.
        assert_eq!(host.packet(&device(5), &DATA, -58), displaced(70, 5, 0, -58));
    });
}

/// The kept RSSI is that of the latest matching packet, good or not; a packet that does not match changes nothing.
#[test]
fn the_kept_rssi() {
    both(|host| {
        host.add(-60, -80, 60, 0xFF, 1, &FLAGS);
        host.command(&[0x05, 1]);
        for i in 0..64 {
            host.packet(&device(i), &DATA, -50);
        }
        host.packet(&device(1), &DATA, -90);
        host.packet(&device(2), &DATA, -70);
        host.packet(&device(3), &[], -100);
        assert_eq!(host.packet(&device(80), &DATA, -61), [], "high still has to be reached");
        assert_eq!(host.packet(&device(80), &DATA, -60), displaced(1, 80, 0, -60));
        assert_eq!(host.packet(&device(81), &DATA, -60), displaced(2, 81, 0, -60));
        // Stronger again: device 2 is kept at -40 after its new start.
        assert_eq!(host.packet(&device(2), &DATA, -40), displaced(80, 2, 0, -40));
        assert_eq!(host.packet(&device(82), &DATA, -50), displaced(81, 82, 0, -50));
        assert_eq!(host.packet(&device(83), &DATA, -50), []);
    });
}

/// Two monitors: one packet displaces two pairs, stop and start in turn; then the pairs of another handle.
#[test]
fn one_packet_displaces_two() {
    both(|host| {
        host.add(-127, -127, 60, 0xFF, 1, &FLAGS);
        host.add(-127, -127, 60, 0xFF, 1, &NAME);
        host.command(&[0x05, 1]);
        for i in 0..63 {
            host.packet(&device(i), &DATA, -50 - (i == 9) as i8);
        }
        host.packet(&device(63), &[2, 9, 0x41], -50);
        // Device 9 is the smallest; then all are at -50, and the earliest started goes.
        let answer = host.packet(&device(90), &BOTH, -40);
        let expected = [
            event(&device(9), 0, 0),
            event(&device(90), 0, 1),
            event(&device(0), 0, 0),
            event(&device(90), 1, 1),
            report(&device(90), &BOTH, -40),
        ];
        assert_eq!(answer, expected.concat());
        assert_eq!(pairs(host)[61..], ["01003F", "00005A", "01005A"]);
        // One smaller than the packet is left of those at -60 for one monitor alone.
        host.packet(&device(63), &[2, 9, 0x41], -60);
        let answer = host.packet(&device(91), &BOTH, -55);
        let expected = [event(&device(63), 1, 0), event(&device(91), 0, 1), report(&device(91), &BOTH, -55)];
        assert_eq!(answer, expected.concat(), "handle 1 finds none weaker than -55");
    });
}

/// All pairs of the packet's device whose monitors match are updated before the first monitor takes it.
#[test]
fn updated_first() {
    both(|host| {
        host.add(-40, -127, 60, 0xFF, 1, &FLAGS);
        host.add(-127, -127, 60, 0xFF, 1, &FLAGS);
        host.command(&[0x05, 1]);
        // Handle 1 has 64 pairs; device 0 is the smallest by far.
        for i in 0..64 {
            host.packet(&device(i), &DATA, if i == 0 { -120 } else { -50 });
        }
        // Device 0 at -40: handle 0 would start; handle 1's pair of it is at -40 already, so device 1 goes.
        let expected = [event(&device(1), 1, 0), event(&device(0), 0, 1), report(&device(0), &DATA, -40)];
        assert_eq!(host.packet(&device(0), &DATA, -40), expected.concat());
    });
}

/// The pair displaced is of the same device, under a monitor that the packet does not match.
#[test]
fn of_the_same_device() {
    both(|host| {
        host.add(-127, -127, 60, 0xFF, 1, &FLAGS);
        host.add(-127, -127, 60, 0xFF, 1, &NAME);
        host.command(&[0x05, 1]);
        host.packet(&device(0), &[2, 9, 0x41], -60);
        for i in 1..64 {
            host.packet(&device(i), &DATA, -50);
        }
        let expected = [event(&device(0), 1, 0), event(&device(0), 0, 1), report(&device(0), &DATA, -59)];
        assert_eq!(host.packet(&device(0), &DATA, -59), expected.concat());
    });
}

/// The displaced pair's window is lost without a report, and the new pair's begins.
#[test]
fn the_window_is_lost() {
    both(|host| {
        host.add(-127, -127, 60, 2, 1, &FLAGS);
        host.command(&[0x05, 1]);
        for i in 0..64 {
            host.packet(&device(i), &DATA, -50);
        }
        host.quiet_ticks(1);
        host.packet(&device(3), &DATA, -60);
        assert_eq!(host.packet(&device(90), &DATA, -59), displaced(3, 90, 0, -59));
        host.packet(&device(90), &DATA, -70);
        host.quiet_ticks(1);
        assert_eq!(host.tick(), report(&device(90), &DATA, -70), "the second tick since its start");
    });
}

/// Filter off: stop and start events as ever, one report. Over a failover the smallest stays the smallest.
#[test]
fn filter_and_failover() {
    both(|host| {
        watching(host, 64);
        host.packet(&device(40), &DATA, -51);
        host.command(&[0x05, 0]);
        let image = host.image();
        host.engine.restore(&image).unwrap();
        assert_eq!(host.packet(&device(90), &DATA, -50), displaced(40, 90, 0, -50));
        assert_eq!(host.packet(&device(91), &DATA, -50), report(&device(91), &DATA, -50));
    });
}

/// The longest answer of a packet: 16 stops, 16 starts and two reports, with a prefix of 32 octets.
#[test]
fn the_longest_answer_of_a_packet() {
    both(|host| {
        host.engine.start(OPCODE, &[7; 32]).unwrap();
        for _ in 0..16 {
            host.add(-127, -127, 60, 0, 1, &FLAGS);
        }
        let data = [&DATA[..], &[27, 9], &[0; 26]].concat();
        assert_eq!(data.len(), 31);
        for i in 0..4 {
            host.packet(&device(i), &data, -50);
        }
        assert_eq!(host.scanned(0, &device(9), &data, &data, -49).len(), 16 * 88 + 90);
    });
}

/// At least a tenth of the cases that `reference/compare` runs have all 64 pairs held after more than half of their executed frames.
#[test]
fn a_tenth_of_the_cases_is_full() {
    let cases = 400;
    let most_full = (0..cases).filter(|index| mostly_full(*index)).count();
    assert!(most_full * 10 >= cases as usize, "{most_full} of {cases}");
}

fn mostly_full(index: u64) -> bool {
    let (base, calls) = calls_of(5, index, index % 3 == 0);
    let mut engine = Timers::default();
    engine.adopt(&base);
    let (mut frames, mut full) = (0, 0);
    for call in &calls {
        let position = engine.state().position;
        script::call(&mut engine, call);
        if engine.state().position > position {
            frames += 1;
            full += usize::from(engine.state().pairs().len() == PAIRS);
        }
    }
    2 * full > frames
}
