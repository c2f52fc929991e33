//! Images: the largest, the longest answer, restore after save, and texts that are none.

mod common;

use common::*;
use reference::engine::Engine;
use reference::generate::{states, texts};
use reference::history::History;
use reference::image;
use reference::limits::{ANSWER, IMAGE};
use reference::lines;
use reference::random::Random;
use reference::state::State;
use reference::timers::{sound, Timers};

fn engines() -> [Box<dyn Engine>; 2] {
    [Box::new(Timers::default()), Box::new(History::default())]
}

fn saved(engine: &dyn Engine) -> Vec<u8> {
    let mut out = vec![0; IMAGE];
    let length = engine.save(&mut out).expect("a sound state");
    out.truncate(length);
    out
}

/// Do both engines take this text for an image? They must agree, and a refusal leaves the blank state.
fn is_image(text: &[u8]) -> bool {
    let [first, second] = engines().map(|mut engine| {
        let result = engine.restore(text);
        match result {
            Ok(()) => assert_eq!(saved(engine.as_ref()), text, "two texts of one state"),
            Err(refusal) => {
                assert_eq!(refusal.number(), 10);
                assert_eq!(engine.state(), State::blank());
            }
        }
        result.is_ok()
    });
    assert_eq!(first, second, "{}", String::from_utf8_lossy(text));
    first
}

#[test]
fn largest_image_and_longest_answer() {
    let state = states::largest(&mut Random::new(1));
    let text = image::text(&state);
    assert_eq!(text.len(), 13162);
    let lengths: Vec<usize> = lines::split(&text).map(<[u8]>::len).collect();
    assert_eq!(lengths, [vec![83], vec![77; 32], vec![195; 16], vec![117; 64], vec![7]].concat());
    for mut engine in engines() {
        engine.restore(&text).unwrap();
        assert_eq!(engine.state(), state);
        assert_eq!(saved(engine.as_ref()), text);
        let mut out = vec![0; ANSWER];
        let tick = [&[3][..], &(state.position + 1).to_le_bytes()].concat();
        assert_eq!(engine.submit(&tick, &mut out), Ok(2880));
        for (place, event) in reference::event::split(&out).into_iter().enumerate() {
            let pair = &state.pairs[place];
            let report =
                [&octets("3E2B0201 03 00")[..], &pair.device.address, &[31], &pair.data, &[0xC3]].concat();
            assert_eq!(event, report, "the mean of -121 over 2 is -61");
        }
    }
}

/// A pair with an open window, its record worked out by hand: sum -121 in two's complement, numbers
/// little-endian, the latest packet; then two ticks and a low packet.
#[test]
fn a_window_in_the_image() {
    both(|host| {
        host.add(-60, -80, 3, 5, 4, &ADDRESS);
        host.packet(&DEVICE, &[0x11], -60);
        host.packet(&DEVICE, &[0xAA, 0xBB], -60);
        host.tick();
        host.packet(&DEVICE, &[0xCC], -61);
        let head = "A100C4B00305040700060504030201\n";
        let first = "A3 00 00 060504030201 0000 01 02000000 87FFFFFFFFFFFFFF C3 00 01 CC".replace(' ', "");
        let expected = format!("A005000000001EFC024D53\nA400000000024D53\n{head}{first}\nAF0101\n");
        assert_eq!(String::from_utf8(host.image()).unwrap(), expected);
        host.quiet_ticks(2);
        host.packet(&DEVICE, &[1, 2, 3], -80);
        let then = "A3 00 00 060504030201 0200 03 03000000 37FFFFFFFFFFFFFF B0 00 03 010203".replace(' ', "");
        let expected = format!("A008000000001EFC024D53\nA400000000024D53\n{head}{then}\nAF0101\n");
        assert_eq!(String::from_utf8(host.image()).unwrap(), expected);
    });
}

#[test]
fn restore_after_save() {
    for index in 0..3000 {
        let mut random = Random::of(11, index);
        let devices = states::devices(&mut random);
        let state = states::sound(&mut random, &devices);
        assert!(sound(&state, reference::fault::Fault::None));
        let text = image::text(&state);
        for mut engine in engines() {
            engine.adopt(&state);
            assert_eq!(saved(engine.as_ref()), text);
            let mut other: Box<dyn Engine> = Box::new(Timers::default());
            other.restore(&text).unwrap();
            assert_eq!(other.state(), state);
            engine.start(0xFC00, &[]).unwrap();
            engine.restore(&text).unwrap();
            assert_eq!(engine.state(), state);
            assert_eq!(saved(engine.as_ref()), text);
        }
    }
}

/// Every way of breaking a clause of "Sound" is met and gives refusal 7; its text, where it shows the
/// break, gives refusal 10.
#[test]
fn broken_states() {
    let mut met = [0; states::WAYS];
    for index in 0..6000 {
        let mut random = Random::of(12, index);
        let devices = states::devices(&mut random);
        let state = states::sound(&mut random, &devices);
        let way = index as usize % states::WAYS;
        let Some(broken) = states::broken(&mut random, &state, way) else { continue };
        met[way] += 1;
        for mut engine in engines() {
            engine.adopt(&broken);
            let tick = [&[3][..], &state.position.wrapping_add(1).to_le_bytes()].concat();
            let mut out = vec![0x77; ANSWER];
            assert_eq!(engine.submit(&tick, &mut out).unwrap_err().number(), 7, "way {way}: {broken:?}");
            assert_eq!(engine.save(&mut []).unwrap_err().number(), 7);
            assert!(out.iter().all(|o| *o == 0x77));
            assert_eq!(engine.state(), broken);
        }
        // Some breaks are in unused places, which no text shows: then the text may be another state's.
        let text = image::text(&broken);
        let shown = image::read(&text, reference::fault::Fault::None).as_ref() == Some(&broken);
        assert!(!is_image(&text) || !shown, "way {way}: {}", String::from_utf8_lossy(&text));
    }
    assert!(met.iter().all(|n| *n > 0), "{met:?}");
}

/// Every octet of some images changed, removed or doubled in turn, and every cut.
#[test]
fn damaged_images() {
    let mut taken = 0;
    for index in 0..6 {
        let mut random = Random::of(13, index);
        let devices = states::devices(&mut random);
        let state = states::sound(&mut random, &devices);
        let text = image::text(&state);
        let places: Vec<usize> =
            (0..text.len()).filter(|p| text.len() < 1500 || p % 7 == index as usize).collect();
        for place in places {
            assert!(!is_image(&text[..place]), "cut");
            is_image(&[&text[..place], &text[place + 1..]].concat());
            is_image(&[&text[..place], &text[place..place + 1], &text[place..]].concat());
            for octet in *b"0F\n a" {
                let mut changed = text.clone();
                changed[place] = octet;
                taken += is_image(&changed) as u32;
            }
        }
    }
    assert!(taken > 0, "some changes make the image of another sound state");
    for index in 0..4000 {
        let mut random = Random::of(14, index);
        let devices = states::devices(&mut random);
        let state = states::sound(&mut random, &devices);
        is_image(&texts::damage(&mut random, &image::text(&state)));
    }
}

#[test]
fn texts_that_are_no_images() {
    let good = "A002000000001EFC024D53\nA400000000024D53\nA100C4B00300040700060504030201\n\
        A30000060504030201000000000000000000000000000000C40000\nAF0101\n";
    assert!(is_image(good.as_bytes()));
    let head = "A002000000001EFC024D53\nA400000000024D53\n";
    let monitor = "A100C4B00300040700060504030201\n";
    let pair = "A30000060504030201000000000000000000000000000000C40000\n";
    let pair_with = |rssi: &str| good.replace("C40000\nAF", &format!("{rssi}0000\nAF"));
    for text in [
        // Before request T-05.
        format!("{head}{monitor}A200000605040302010000000000000000000000000000000000\nAF0101\n"),
        pair_with("15"),
        pair_with("7F"),
        pair_with("80"),
        String::new(),
        "\n".to_string(),
        head.to_string(),
        format!("{head}{monitor}{pair}"),
        format!("{head}{monitor}{pair}AF0101"),
        format!("{head}{monitor}{pair}AF0101\n\n"),
        format!("\n{good}"),
        format!("{good}{good}"),
        format!("{head}{monitor}{pair}AF0100\n"),
        format!("{head}{monitor}{pair}AF0201\n"),
        format!("{head}{pair}{monitor}AF0101\n"),
        format!("{monitor}{head}{pair}AF0101\n"),
        format!("{head}{head}{monitor}{pair}AF0101\n"),
        format!("{head}{monitor}{monitor}{pair}AF0201\n"),
        format!("{head}{monitor}{pair}{pair}AF0102\n"),
        format!("{head}{pair}AF0001\n"),
        format!("{head}{monitor}{pair}AF010100\n"),
        format!("{head}{monitor}{pair}AF01\n"),
        good.to_lowercase(),
        good.replace('\n', "\r\n"),
        good.replace("024D53", "034D53"),
        good.replace("024D53", "014D53"),
        good.replace("024D53", "024D5300"),
        good.replace("FC02", "FB02"),
        good.replace("001EFC", "021EFC"),
        good.replace("A100C4B0", "A110C4B0"),
        good.replace("C4B003", "AFB003"),
        good.replace("C4B003", "C4B000"),
        good.replace("C4B003", "C4B03D"),
        good.replace("0300040700", "0300030700"),
        good.replace("0300040700", "0300040600"),
        // Ticks since a good packet 30 of 30; a window tick and a packet with sampling 0.
        good.replace("0201000000000000000000000000000000", "02011E00000000000000000000000000000"),
        good.replace("030201000000000000", "0302011E0000000000"),
        good.replace("030201000000000000", "030201000001000000"),
        good.replace("030201000000000000", "030201000000010000"),
    ] {
        assert_ne!(text, good);
        assert!(!is_image(text.as_bytes()), "{text}");
    }
    assert!(is_image(good.replace("030201000000000000", "0302011D0000000000").as_bytes()), "29 of 30");
    assert!(is_image(good.replace("C4B003000407", "C4B003FE0407").as_bytes()));
    assert!(
        is_image(pair_with("14").as_bytes()) && is_image(pair_with("81").as_bytes()),
        "kept RSSI 20 and -127"
    );
    assert!(is_image(good.replace("C4B003", "B0B003").as_bytes()), "equal thresholds");
    assert!(is_image(good.replace("C4B003", "818103").as_bytes()), "equal at -127");
    assert!(is_image(good.replace("C4B003", "141403").as_bytes()), "equal at 20");
}
