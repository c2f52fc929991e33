//! Random sessions and scripts through the library and through the independent implementation: after every call the
//! same refusal, the same octets written, the rest of the output as it was, and the same state, octet for octet.

use crate::engine::{line, Library};
use reference::block;
use reference::engine::Engine;
use reference::fault::Fault;
use reference::generate;
use reference::limits::IMAGE;
use reference::script::{self, Call, Outcome};
use reference::timers::Timers;

/// What was compared.
#[derive(Clone, Copy, Default)]
pub struct Counts {
    pub scripts: u64,
    pub calls: u64,
    pub octets: u64,
}

/// The scripts of a seed: sessions of document 01, and scripts with any calls whose states a block holds.
pub fn script_of(seed: u64, index: u64) -> Vec<Call> {
    let calls = match index % 2 {
        0 if index % 2000 == 1000 => generate::quarters(seed, index),
        0 => generate::session(seed, index, 120),
        _ => generate::script(seed, index),
    };
    let held = |call: &Call| match call {
        Call::Adopt(state) => block::of(state).is_some(),
        _ => true,
    };
    calls.into_iter().filter(held).chain([Call::Save { lent: IMAGE }]).collect()
}

/// The place of the first call at which the library and the other engine differ.
pub fn first_difference(seed: u64, index: u64, fault: Fault, counts: &mut Counts) -> Option<usize> {
    let mut library = Library {
        piece: 1 + (index as usize) % 700,
        lent: 2880 + (index as usize) % 3200,
        ..Library::default()
    };
    let mut other = Timers::with_fault(fault);
    counts.scripts += 1;
    for (place, call) in script_of(seed, index).iter().enumerate() {
        let (expected, given) = (one(script::call(&mut other, call)), one(given(&mut library, call)));
        counts.calls += 1;
        counts.octets += given.written.iter().map(|w| w.len() as u64).sum::<u64>();
        let same_state = block::of(&other.state()) == Some(library.state.block);
        let same_position = library.state.position() == other.state().position;
        if expected != given || !same_state || !same_position {
            return Some(place);
        }
    }
    None
}

/// A call of the library; a line is written by its own function.
pub fn given(library: &mut Library, call: &Call) -> Outcome {
    match call {
        Call::WriteLine { octets, lent } => script::lending(*lent, |out| line(octets, out)),
        _ => script::call(library, call),
    }
}

/// An outcome with its octets in one.
pub fn one(outcome: Outcome) -> Outcome {
    Outcome { written: vec![outcome.written.concat()], ..outcome }
}
