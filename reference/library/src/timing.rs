//! The processor's time of a replay in memory, by the library, by the independent implementation and by the rival.

use crate::{foreign, limit, State};
use reference::engine::Engine;
use reference::fault::Fault;
use reference::timers::Timers;
use rival::Refusal;

/// Octets lent to a replay; its answers are gathered in memory.
const LENT: usize = 65536;

/// The answers of a journal by the library, in memory.
pub fn by_library(image: &[u8], journal: &[u8]) -> Option<Vec<u8>> {
    let (mut state, refusal) = State::restore(image);
    let mut out = vec![0; LENT];
    let (mut answers, mut at) = (Vec::new(), 0);
    while refusal == 0 {
        let ran = state.replay(&journal[at..], &mut out);
        at += ran.taken;
        answers.extend_from_slice(&out[..ran.wrote]);
        match ran.refusal {
            0 => return Some(answers),
            3 => (),
            _ => return None,
        }
    }
    None
}

/// The same by the independent implementation.
pub fn by_reference(image: &[u8], journal: &[u8]) -> Option<Vec<u8>> {
    let mut engine = Timers::default();
    engine.restore(image).ok()?;
    let replayed = engine.replay(journal);
    replayed.refusal.is_none().then(|| replayed.answers.concat())
}

/// The same by the rival, which has no images: the image gives the settings, and is that of a fresh state.
pub fn by_rival(image: &[u8], journal: &[u8]) -> Option<Vec<u8>> {
    let held = reference::image::read(image, Fault::None)?;
    if held.position != 0 || held.monitor_count != 0 {
        return None;
    }
    let mut engine = rival::Engine::fresh(held.opcode, held.prefix()).ok()?;
    let mut out = vec![0; LENT];
    let (mut answers, mut at) = (Vec::new(), 0);
    loop {
        let ran = engine.replay(&journal[at..], &mut out);
        at += ran.taken;
        answers.extend_from_slice(&out[..ran.wrote]);
        match ran.refusal {
            None => return Some(answers),
            Some(Refusal::ShortOutput) => (),
            Some(_) => return None,
        }
    }
}

/// Reading the hexadecimal alone: the octets of the last line, and how many there were in all.
pub fn by_limit(_: &[u8], journal: &[u8]) -> Option<Vec<u8>> {
    let mut frame = [0; limit::FRAME];
    let (last, all) = limit::read_all(journal, &mut frame)?;
    Some([&frame[..last], &all.to_le_bytes()].concat())
}

/// The answers, and the shortest time in nanoseconds of some runs: the processor's, so that other work counts little.
pub fn timed(run: impl Fn() -> Option<Vec<u8>>, times: usize) -> Option<(Vec<u8>, u128)> {
    let mut best = None;
    for _ in 0..times {
        let begin = foreign::spent();
        let answers = run()?;
        let spent = foreign::spent() - begin;
        if best.as_ref().is_none_or(|(_, least)| spent < *least) {
            best = Some((answers, spent));
        }
    }
    best
}
