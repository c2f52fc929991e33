//! A script: a list of calls. A session of document 01 is a script that starts, gives frames and saves;
//! other scripts also restore, replay, write lines and take up states that are not sound.

use crate::engine::{write_line, Engine};
use crate::limits::IMAGE;
use crate::state::{Device, State};

#[derive(Clone, PartialEq, Eq, Debug)]
pub enum Call {
    Start {
        opcode: u16,
        prefix: Vec<u8>,
    },
    Octets {
        octets: Vec<u8>,
        lent: usize,
    },
    Line {
        text: Vec<u8>,
        lent: usize,
    },
    Save {
        lent: usize,
    },
    WriteLine {
        octets: Vec<u8>,
        lent: usize,
    },
    Restore {
        text: Vec<u8>,
    },
    /// Save, and restore what was saved.
    Failover,
    Replay {
        text: Vec<u8>,
    },
    /// Replay as far as a frame.
    ReplayTo {
        last: u32,
        text: Vec<u8>,
    },
    /// The next call is given this state, sound or not.
    Adopt(Box<State>),
    /// Which monitors watch this device?
    Ask(Device),
    /// Add an edition of the prefix.
    Edition {
        from: u32,
        prefix: Vec<u8>,
    },
}

/// What can be seen of a call.
#[derive(Clone, PartialEq, Eq, Debug)]
pub struct Outcome {
    /// The refusal's number; 0 if there is none.
    pub refusal: u8,
    /// The octets written; for replay the answers in order; for replay as far as a frame also the number of octets
    /// taken, in four octets, low octet first.
    pub written: Vec<Vec<u8>>,
    /// Octets of the lent output past those written, and all of them at a refusal, stayed as they were.
    pub rest_kept: bool,
}

/// What a lent output holds before the call.
const BEFORE: u8 = 0xA5;

/// Make one call.
pub fn call(engine: &mut dyn Engine, call: &Call) -> Outcome {
    match call {
        Call::Start { opcode, prefix } => bare(engine.start(*opcode, prefix).err().map(|r| r.number())),
        Call::Octets { octets, lent } => lending(*lent, |out| engine.submit(octets, out)),
        Call::Line { text, lent } => lending(*lent, |out| engine.submit_line(text, out)),
        Call::Save { lent } => lending(*lent, |out| engine.save(out)),
        Call::WriteLine { octets, lent } => lending(*lent, |out| write_line(octets, out, engine.fault())),
        Call::Restore { text } => bare(engine.restore(text).err().map(|r| r.number())),
        Call::Failover => {
            let saved = lending(IMAGE, |out| engine.save(out));
            if saved.refusal == 0 {
                bare(engine.restore(&saved.written[0]).err().map(|r| r.number()))
            } else {
                saved
            }
        }
        Call::Replay { text } => {
            let replayed = engine.replay(text);
            Outcome {
                refusal: replayed.refusal.map_or(0, |r| r.number()),
                written: replayed.answers,
                rest_kept: true,
            }
        }
        Call::ReplayTo { last, text } => {
            let (replayed, taken) = engine.replay_to(*last, text);
            let mut written = replayed.answers;
            written.push((taken as u32).to_le_bytes().to_vec());
            Outcome { refusal: replayed.refusal.map_or(0, |r| r.number()), written, rest_kept: true }
        }
        Call::Ask(device) => {
            let written = engine.ask(device).map_or(Vec::new(), |(count, lowest)| vec![count, lowest]);
            Outcome { refusal: 0, written: vec![written], rest_kept: true }
        }
        Call::Edition { from, prefix } => bare(engine.add_edition(*from, prefix).err().map(|r| r.number())),
        Call::Adopt(state) => {
            engine.adopt(state);
            bare(None)
        }
    }
}

fn bare(refusal: Option<u8>) -> Outcome {
    Outcome { refusal: refusal.unwrap_or(0), written: Vec::new(), rest_kept: true }
}

pub fn lending(
    lent: usize,
    make: impl FnOnce(&mut [u8]) -> Result<usize, crate::refusal::Refusal>,
) -> Outcome {
    let mut out = vec![BEFORE; lent];
    let (refusal, length) = match make(&mut out) {
        Ok(length) => (0, length),
        Err(refusal) => (refusal.number(), 0),
    };
    let rest_kept = out[length..].iter().all(|o| *o == BEFORE);
    out.truncate(length);
    Outcome { refusal, written: if refusal == 0 { vec![out] } else { Vec::new() }, rest_kept }
}

/// Make all calls, then save; the outcomes in order.
pub fn run(engine: &mut dyn Engine, calls: &[Call]) -> Vec<Outcome> {
    let mut outcomes: Vec<Outcome> = calls.iter().map(|c| call(engine, c)).collect();
    outcomes.push(call(engine, &Call::Save { lent: IMAGE }));
    outcomes
}

/// Make the calls until an outcome differs from the expected one: its place.
pub fn first_difference(engine: &mut dyn Engine, calls: &[Call], expected: &[Outcome]) -> Option<usize> {
    let last = Call::Save { lent: IMAGE };
    let all = calls.iter().chain(std::iter::once(&last));
    all.zip(expected).position(|(c, outcome)| call(engine, c) != *outcome)
}
