//! Document 02, T-08: the comparisons of a match, rows counted by hand, the bounds, and the vectors.

mod common;

use common::*;
use reference::condition::matches;
use reference::cost::{cost, costs};
use reference::fault::{Fault, VECTOR_FAULTS};
use reference::frame::Packet;

#[test]
fn rows_by_hand() {
    let rows = [
        // No structure, no comparison.
        ("01 03 09 00 41", "", "", (false, 0)),
        ("01 03 09 00 41", "00 020941", "", (false, 0)),
        ("01 03 09 00 41", "030941", "", (false, 0)),
        // The AD type alone; the type and the octet, equal or not.
        ("01 03 09 00 41", "020141", "", (false, 1)),
        ("01 03 09 00 41", "020941", "", (true, 2)),
        ("01 03 09 00 41", "020942", "", (false, 2)),
        // Octets up to the first difference, that one included.
        ("01 05 09 00 414243", "0409414243", "", (true, 4)),
        ("01 05 09 00 414243", "0409414200", "", (false, 4)),
        ("01 05 09 00 414243", "0409410043", "", (false, 3)),
        ("01 05 09 00 414243", "0409004243", "", (false, 2)),
        // A structure too short: the AD type alone, though the first octets are equal.
        ("01 05 09 00 414243", "03094142", "", (false, 1)),
        ("01 05 09 01 414243", "0409414243", "", (false, 1)),
        ("01 03 09 FF 41", "020941", "", (false, 1)),
        ("01 03 09 00 41", "0109", "", (false, 1)),
        // The start byte: octets before it are not compared.
        ("01 04 09 01 4243", "0409414243", "", (true, 3)),
        // Several structures of one type; the first match ends all.
        ("01 03 09 00 41", "020942 020941 020941", "", (true, 4)),
        ("01 03 09 00 41", "020106 020942 020941", "", (true, 5)),
        ("02 03 09 00 41 03 01 00 06", "020106 020941", "", (true, 3)),
        ("02 03 09 00 42 03 01 00 06", "020106 020941", "", (true, 1 + 2 + 2)),
        // Earlier structures count, what is behind a 0 or an overrun does not.
        ("01 03 09 00 41", "020942 00 020941", "", (false, 2)),
        ("01 03 09 00 41", "020942 FF0941", "", (false, 2)),
        // Each pattern goes over the advertisement, then the scan response.
        ("01 03 09 00 41", "020942", "020941", (true, 4)),
        ("01 03 09 00 41", "", "020941", (true, 2)),
        ("01 03 09 00 41", "FF", "020941", (true, 2)),
        ("02 03 09 00 41 03 01 00 06", "020106", "020942 020941", (true, 1 + 2 + 2)),
        ("02 03 09 00 41 03 01 00 06", "020106", "020942", (true, 1 + 2 + 2)),
        ("02 03 09 00 41 03 01 00 06", "020105", "020942", (false, 1 + 2 + 2 + 1)),
    ];
    for (condition, data, scan, expected) in rows {
        let found = cost(&octets(condition), &octets(data), &octets(scan), Fault::None);
        assert_eq!(found, expected, "{condition} on {data} and {scan}");
    }
}

#[test]
fn the_worst_case() {
    let mut condition = vec![15];
    (0..15).for_each(|_| condition.extend([3, 0xFF, 0, 1]));
    let text = [2, 0xFF, 2].repeat(10);
    assert_eq!(condition.len(), 61);
    assert_eq!(cost(&condition, &text, &[], Fault::None), (false, 300));
    assert_eq!(cost(&condition, &text, &text, Fault::None), (false, 600));
}

/// The stored number of vectors: they match as the engine says, stay below the bounds, and reach what is asked for.
#[test]
fn three_thousand_vectors() {
    let rows = costs(8, 4000, Fault::None);
    let (mut matched, mut most, mut zero, mut scanned) = (0, 0, 0, 0);
    for row in &rows {
        let fields: Vec<Vec<u8>> = row.split(' ').take(3).map(|f| octets(&f.replace('-', ""))).collect();
        let [condition, data, scan] = &fields[..] else { panic!("five fields") };
        let numbers: Vec<u32> = row.split(' ').skip(3).map(|n| n.parse().unwrap()).collect();
        let packet =
            Packet { event_type: 0, device: DEVICE, data: data.clone(), scan: Some(scan.clone()), rssi: 0 };
        assert_eq!(matches(1, condition, &packet, Fault::None), numbers[0] == 1, "{row}");
        assert!(numbers[1] <= if scan.is_empty() { 450 } else { 900 });
        matched += numbers[0];
        most = most.max(numbers[1]);
        zero += (numbers[1] == 0) as u32;
        scanned += (!scan.is_empty()) as u32;
    }
    assert_eq!(most, 600);
    assert!((1000..3000).contains(&matched), "{matched} match");
    assert!(zero > 20 && scanned > 1000, "{zero} without a comparison, {scanned} with a scan response");
}

#[test]
fn every_wrong_count_is_noticed() {
    let right = costs(8, 3000, Fault::None);
    for (fault, words) in VECTOR_FAULTS {
        let wrong = costs(8, 3000, *fault);
        let differ = right.iter().zip(&wrong).filter(|(one, other)| one != other).count();
        assert!(differ > 30, "{words}: {differ}");
    }
}
