//! What occurs in the stored scripts.

use crate::calls::{tag, Stored, NAMES};
use crate::script::{self, Call};
use crate::timers::Timers;
use std::collections::BTreeSet;

/// Numbers that no call here gives: 8 is not used again (T-11), 11 and 12 are those of other requests (T-07, T-09).
pub const UNUSED: [usize; 3] = [8, 11, 12];

/// What occurs in some scripts.
#[derive(Clone, PartialEq, Eq, Debug, Default)]
pub struct Census {
    /// Calls of each kind, in the order of `NAMES`; the save at each script's end is not counted.
    pub calls: [usize; 12],
    /// Calls with refusal n, at place n; see `UNUSED`.
    pub refusals: [usize; 16],
    /// Sizes of pieces that are smaller than their text.
    pub sizes: BTreeSet<usize>,
    /// Journals shown whole.
    pub whole: usize,
}

pub fn census(scripts: &[Stored]) -> Census {
    let mut census = Census::default();
    for stored in scripts {
        let mut showings = stored.showings.iter();
        for call in &stored.calls {
            census.calls[tag(call) as usize - 1] += 1;
            if let Call::Replay { text } | Call::ReplayTo { text, .. } = call {
                match showings.next() {
                    Some(showing) if showing.piece < text.len() => drop(census.sizes.insert(showing.piece)),
                    _ => census.whole += 1,
                }
            }
        }
        let outcomes = script::run(&mut Timers::default(), &stored.calls);
        outcomes.iter().for_each(|outcome| census.refusals[outcome.refusal as usize] += 1);
    }
    census
}

impl Census {
    /// A line for each count.
    pub fn text(&self) -> String {
        let mut text = String::new();
        for (name, count) in NAMES.iter().zip(self.calls) {
            text += &format!("{count:>8} {name}\n");
        }
        for (number, count) in self.refusals.iter().enumerate().filter(|(number, _)| !UNUSED.contains(number))
        {
            text += &format!("{count:>8} calls with refusal {number}\n");
        }
        text += &format!("{:>8} sizes of pieces below their text's length\n", self.sizes.len());
        text + &format!("{:>8} journals shown whole\n", self.whole)
    }
}
