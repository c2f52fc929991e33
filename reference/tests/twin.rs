//! Document 02, T-07: the slow twin gives what the engine gives up to 128 frames, and 11 after 6 from then on.

use reference::engine::Engine;
use reference::limits::{ANSWER, IMAGE};
use reference::refusal::Refusal;
use reference::timers::Timers;
use reference::twin::{Twin, FRAMES};

fn tick(number: u32) -> Vec<u8> {
    let mut frame = vec![3];
    frame.extend(number.to_le_bytes());
    frame
}

/// A command of an opcode: 00, supported features.
fn command(number: u32, opcode: u16) -> Vec<u8> {
    let mut frame = vec![1];
    frame.extend(number.to_le_bytes());
    frame.extend(opcode.to_le_bytes());
    frame.extend([1, 0]);
    frame
}

fn begun(engine: &mut dyn Engine) {
    engine.start(0xFC1E, b"MS").expect("settings in range");
}

#[test]
fn full_after_128_frames() {
    let (mut twin, mut first) = (Twin::default(), Timers::default());
    begun(&mut twin);
    begun(&mut first);
    let mut out = [0; ANSWER];
    for number in 1..=FRAMES {
        assert_eq!(twin.submit(&tick(number), &mut out), Ok(0));
        assert_eq!(first.submit(&tick(number), &mut out), Ok(0));
    }
    // Full: every other refusal comes first.
    assert_eq!(twin.submit(&tick(FRAMES + 1), &mut out), Err(Refusal::FramesFull));
    assert_eq!(twin.submit(&command(FRAMES + 1, 0xFC1F), &mut out), Err(Refusal::OtherOpcode));
    assert_eq!(twin.submit(&tick(FRAMES + 2), &mut out), Err(Refusal::Gap));
    assert_eq!(twin.submit(&tick(FRAMES), &mut out), Err(Refusal::Seen));
    assert_eq!(twin.submit(&tick(FRAMES + 1), &mut out[1..]), Err(Refusal::ShortOutput));
    assert_eq!(twin.submit(&[9], &mut out), Err(Refusal::NotALine));
    assert_eq!(Refusal::FramesFull.number(), 11);
    // The image is the first engine's, and stays so.
    let (mut ours, mut theirs) = ([0; IMAGE], [0; IMAGE]);
    assert_eq!(twin.save(&mut ours), first.save(&mut theirs));
    assert_eq!(ours, theirs);
}

#[test]
fn begins_at_a_fresh_image_alone() {
    let mut first = Timers::default();
    begun(&mut first);
    first.add_edition(7, b"MT").expect("an edition");
    let mut text = [0; IMAGE];
    let fresh = first.save(&mut text).expect("a sound state");
    let mut twin = Twin::default();
    assert_eq!(twin.restore(&text[..fresh]), Ok(()));
    let mut out = [0; ANSWER];
    first.submit(&tick(1), &mut out).expect("a tick");
    let later = first.save(&mut text).expect("a sound state");
    assert_eq!(twin.restore(&text[..later]), Err(Refusal::NotAnImage));
}
