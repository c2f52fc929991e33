//! Document 02, T-03: AES-128 by FIPS 197's own examples, ah by the Core Specification's, and conditions of type 3.

mod common;

use common::*;
use reference::aes::{encrypt, expand, substitute};
use reference::engine::Engine;
use reference::fault::Fault;
use reference::generate;
use reference::history::History;
use reference::private::{address, ah, resolves};
use reference::script;
use reference::state::Device;
use reference::timers::Timers;

fn sixteen(text: &str) -> [u8; 16] {
    octets(text).try_into().unwrap()
}

/// The Core Specification's sample: IRK, prand 708194, hash 0dfbaa; the key least octet first.
fn sample() -> ([u8; 16], Device) {
    let mut key = sixteen("ec0234a357c8ad05341010a60a397d9b");
    key.reverse();
    (key, Device { kind: 1, address: [0xAA, 0xFB, 0x0D, 0x94, 0x81, 0x70] })
}

/// FIPS 197, figure 7: the first row and some entries.
#[test]
fn the_table() {
    let first = sixteen("637c777bf26b6fc53001672bfed7ab76");
    for (octet, entry) in first.into_iter().enumerate() {
        assert_eq!(substitute(octet as u8, Fault::None), entry);
    }
    assert_eq!([0x53, 0xFF, 0x9A].map(|octet| substitute(octet, Fault::None)), [0xED, 0x16, 0xB8]);
    let all: std::collections::BTreeSet<u8> = (0..=255).map(|octet| substitute(octet, Fault::None)).collect();
    assert_eq!(all.len(), 256);
}

/// FIPS 197, appendices A.1, B and C.1; then blocks by OpenSSL, `openssl enc -aes-128-ecb -nopad -K KEY`, key and block
/// being the first 16 octets of the SHA-256 of "key 1" and "block 1", and so on.
#[test]
fn blocks() {
    let key = sixteen("2b7e151628aed2a6abf7158809cf4f3c");
    let words = expand(&key, Fault::None);
    assert_eq!(words.len(), 44);
    assert_eq!(words[4].to_vec(), octets("a0fafe17"));
    assert_eq!(words[43].to_vec(), octets("b6630ca6"));
    let rows =
        "2b7e151628aed2a6abf7158809cf4f3c 3243f6a8885a308d313198a2e0370734 3925841d02dc09fbdc118597196a0b32
        000102030405060708090a0b0c0d0e0f 00112233445566778899aabbccddeeff 69c4e0d86a7b0430d8cdb78070b4c55a
        227ba5f2c6c9109fe5c44a0696f39337 cabdbdfa02c612a9652e5e4965db9180 3f3893618fc35c841d796632dd449e5a
        08f225fe08e94a5b1da2da4079fcd1a7 3c2001aacceab201c95baff79bd10da8 fda2034b121a7adb29718ab402d71922
        3d3ee11c2fbf7f6a6b1e6aa16c382631 567744ae5cd2f67aa5ed24d01eb161c7 4d55f446bbf2df3d29e98e535d8cadd9
        a1788ce1d89fe8b456e26d4c37fd6356 8e6bc5aa44a341cc424ae831f6e30b01 a6c0f13d41785d02b401751a4a17b1b0
        4fec9c05b7f6db9c1b5fdd75bc5107f2 159974c0f53ff1c42dff1bbeb1be8ea0 e932f0f41822f9ec38291e129c51ac46
        b7a7f761815e89d6aa9c9b55fd5d8bba a56e2a48b9d79b3b1e69ce262b572559 90e30476eabf9da11f70fccac282a24f
        2178bf21a7bea99aa9c6374b2d5b9112 40572d2357d261b7add0bd7c252cddad c8439728c70d646a57a44845f0859ac0
        bd083accbfa2ed57273cef976e0adf57 7c0021d44fca8786cb4dbfa05adfa546 8fee124941cca29977e0ad3cc8cf8e73";
    for row in rows.lines() {
        let fields: Vec<[u8; 16]> = row.split_whitespace().map(sixteen).collect();
        assert_eq!(encrypt(&fields[0], &fields[1], Fault::None), fields[2], "{row}");
    }
}

#[test]
fn the_sample_of_core() {
    let (key, device) = sample();
    assert_eq!(ah(&key, [0x94, 0x81, 0x70], Fault::None), [0xAA, 0xFB, 0x0D]);
    assert!(resolves(&key, &device, Fault::None));
    assert_eq!(address(&key, [0x94, 0x81, 0x70]), device.address);
}

/// Public, other top bits (with the hash that would fit them too), a bit of the address or of the key changed, the
/// key's octets in the other order.
#[test]
fn nearly_resolved() {
    let (key, device) = sample();
    assert!(!resolves(&key, &Device { kind: 0, ..device }, Fault::None));
    for top in [0x00, 0x80, 0xC0] {
        let prand = [0x94, 0x81, 0x30 | top];
        let own = Device { kind: 1, address: address(&key, prand) };
        assert!(!resolves(&key, &own, Fault::None), "top bits {top:02X}");
        let mut other = device;
        other.address[5] = prand[2];
        assert!(!resolves(&key, &other, Fault::None));
    }
    let own = Device { kind: 1, address: address(&key, [0x94, 0x81, 0x7F]) };
    assert!(resolves(&key, &own, Fault::None));
    for bit in 0..48 {
        let mut other = device;
        other.address[bit / 8] ^= 1 << (bit % 8);
        assert!(!resolves(&key, &other, Fault::None), "bit {bit} of the address");
    }
    for bit in 0..128 {
        let mut other = key;
        other[bit / 8] ^= 1 << (bit % 8);
        assert!(!resolves(&other, &device, Fault::None), "bit {bit} of the key");
    }
    let mut other = key;
    other.reverse();
    assert!(!resolves(&other, &device, Fault::None));
}

/// Commands with 15, 16 and 17 octets; a key of zeros; pairs and events keep the address received.
#[test]
fn conditions_of_type_3() {
    both(|host| {
        let (key, device) = sample();
        assert_eq!(host.add(-60, -80, 1, 0, 3, &key[..15]), [0x12, 0x03, 0]);
        assert_eq!(host.add(-60, -80, 1, 0, 3, &[&key[..], &[0]].concat()), [0x12, 0x03, 0]);
        assert_eq!(host.add(-60, -80, 1, 0, 3, &key), [0x00, 0x03, 0]);
        assert_eq!(host.add(-60, -80, 1, 0xFF, 3, &[0; 16]), [0x00, 0x03, 1]);
        host.command(&[0x05, 1]);
        let started = |d: &Device, handle| [event(d, handle, 1), report(d, &[], -60)].concat();
        assert_eq!(host.packet(&device, &[], -60), started(&device, 0));
        // The machine's next address: a pair of its own.
        let next = Device { kind: 1, address: address(&key, [1, 2, 0x43]) };
        assert_eq!(host.packet(&next, &[], -60), started(&next, 0));
        let zero = Device { kind: 1, address: address(&[0; 16], [1, 2, 0x43]) };
        assert_eq!(host.packet(&zero, &[], -60), started(&zero, 1));
        assert_eq!(host.packet(&Device { kind: 0, ..next }, &[], -60), []);
        let text = String::from_utf8(host.image()).unwrap();
        assert!(text.contains("A100C4B001000310 9B7D390AA61010 3405ADC857A33402EC".replace(' ', "").as_str()));
        assert!(text.contains("A30001AAFB0D948170"));
        assert!(text.ends_with("AF0203\n"));
        host.engine.restore(text.as_bytes()).unwrap();
        assert_eq!(host.packet(&next, &[], -61), report(&next, &[], -61), "under watch");
        host.quiet_ticks(9);
        assert_eq!(host.tick(), [event(&device, 0, 0), event(&next, 0, 0), event(&zero, 1, 0)].concat());
    });
}

/// Addresses that change every 9,000 ticks: both engines say the same of a session.
#[test]
fn every_quarter_hour() {
    let calls = generate::quarters(3, 0);
    assert!(calls.len() > 27_000);
    let expected = script::run(&mut Timers::default(), &calls);
    let differs = script::first_difference(&mut History::default(), &calls, &expected);
    assert_eq!(differs, None);
    let events = |flag: u8| {
        let all = expected.iter().flat_map(|outcome| outcome.written.iter());
        all.flat_map(|octets| reference::event::split(octets).into_iter().map(<[u8]>::to_vec))
            .filter(|event| event[0] == 0xFF && event.last() == Some(&flag))
            .count()
    };
    assert!(events(1) >= 9 && events(0) >= 6, "{} starts, {} stops", events(1), events(0));
    let mut engine = Timers::default();
    calls.iter().for_each(|call| drop(script::call(&mut engine, call)));
    assert!(engine.state().position > 27_000);
}
