//! Document 01's session, and what a replay leaves to its caller. Everything else is compared (`rival compare`).

use rival::{Engine, Ran, Refusal, ANSWER};

const FRAMES: &[u8] = b"01010000001EFC0D03C4B003000400060504030201\n0202000000000006050403020100C4\n";
const ANSWERS: &str = "0E06011EFC000300FF0C4D53020006050403020100013E0C0201000006050403020100C4";

fn hexadecimal(octets: &[u8]) -> String {
    octets.iter().map(|octet| format!("{octet:02X}")).collect()
}

fn begun() -> Engine {
    Engine::fresh(0xFC1E, b"MS").expect("settings in range")
}

#[test]
fn session_in_full() {
    let (mut engine, mut out) = (begun(), vec![0; 2 * ANSWER]);
    let ran = engine.replay(FRAMES, &mut out);
    assert_eq!(ran, Ran { taken: FRAMES.len(), wrote: ANSWERS.len() / 2, refusal: None });
    assert_eq!(hexadecimal(&out[..ran.wrote]), ANSWERS);
    let tick = |n: u8| format!("03{n:02X}000000\n").into_bytes();
    for n in 3..32 {
        assert_eq!(engine.give_line(&tick(n), &mut out), Ok(0));
    }
    let wrote = engine.give_line(&tick(32), &mut out).expect("the thirtieth tick");
    assert_eq!(hexadecimal(&out[..wrote]), "FF0C4D5302000605040302010000");
}

#[test]
fn replay_goes_on_where_it_stopped() {
    let (mut engine, mut out) = (begun(), vec![0; ANSWER]);
    let first = engine.replay(FRAMES, &mut out);
    assert_eq!(first, Ran { taken: 43, wrote: 8, refusal: Some(Refusal::ShortOutput) });
    let rest = engine.replay(&FRAMES[43..], &mut out);
    assert_eq!((rest.taken, rest.refusal), (FRAMES.len() - 43, None));
    let seen = engine.replay(FRAMES, &mut out);
    assert_eq!(seen, Ran { taken: FRAMES.len(), wrote: 0, refusal: None });
    let piece = engine.replay(b"0303000000\n03040", &mut vec![0; 2 * ANSWER]);
    assert_eq!(piece, Ran { taken: 11, wrote: 0, refusal: None });
}

#[test]
fn refusals_of_a_line() {
    let (mut engine, mut out) = (begun(), vec![0; ANSWER]);
    let long = [vec![b'0'; 528], vec![b'\n']].concat();
    let broken: [&[u8]; 8] =
        [b"", b"\n", b"0301000000", b"0301000000\r\n", b"030100000\n", b"03010000\n", b"0a01000000\n", &long];
    for text in broken {
        assert_eq!(engine.give_line(text, &mut out), Err(Refusal::NotALine));
    }
    for (text, refusal) in [
        (&b"0001000000\n"[..], Refusal::NotALine),
        (b"0501000000\n", Refusal::NotALine),
        (b"0300000000\n", Refusal::Seen),
        (b"0302000000\n", Refusal::Gap),
        (b"030100000000\n", Refusal::Payload),
        (b"01010000001FFC00\n", Refusal::Payload),
        (b"01010000001FFC0100\n", Refusal::OtherOpcode),
    ] {
        assert_eq!(engine.give_line(text, &mut out), Err(refusal));
    }
    assert_eq!(engine.give_line(b"0301000000\n", &mut out[1..]), Err(Refusal::ShortOutput));
    assert!(Engine::fresh(0xFBFF, b"").is_err() && Engine::fresh(0xFC00, &[0; 33]).is_err());
}

/// A monitor of version 2 that asks for directed packets and filters duplicates: a packet that is no reason for a report is not kept.
#[test]
fn only_reasons_are_kept_for_duplicates() {
    let (mut engine, mut out) = (begun(), vec![0; ANSWER]);
    let added = [&[0x0F, 0xC4, 0xB0, 3, 0, 0x20, 0x09][..], &[0; 23], &[4, 0, 6, 5, 4, 3, 2, 1]].concat();
    let command = |parameters: &[u8]| [&[0x1E, 0xFC, parameters.len() as u8], parameters].concat();
    let packet = |event_type: u8, data: u8| vec![event_type, 0, 6, 5, 4, 3, 2, 1, 1, data, 0xC4];
    let frames = [
        (1, command(&added), 8),
        (1, command(&[5, 1]), 7),
        (2, packet(1, 0xAA), 14 + 15),
        (2, packet(0, 0xBB), 0),
        (2, packet(1, 0xAA), 0),
        (2, packet(1, 0xCC), 15),
        (2, packet(1, 0xAA), 15),
    ];
    for (number, (kind, payload, wrote)) in (1u32..).zip(frames) {
        let frame = [&[kind][..], &number.to_le_bytes(), &payload].concat();
        assert_eq!(engine.give(&frame, &mut out), Ok(wrote), "frame {number}");
    }
}
