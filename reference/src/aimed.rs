//! Calls added to the stored scripts for sides of comparisons that the generator's calls do not take: replay as far as a
//! frame, and lines that end before their LF.

use crate::calls::{Showing, Stored};
use crate::engine::Engine;
use crate::limits::ANSWER;
use crate::random::Random;
use crate::script::{self, Call};
use crate::timers::Timers;

/// Before some replays one of the same text as far as a frame, and before some lines the same line without its last
/// digit and its LF. Neither changes what the calls behind it see.
pub(crate) fn with(seed: u64, place: usize, stored: Stored) -> Stored {
    let mut random = Random::of(seed ^ 0xA17E, place as u64);
    let mut follower = Timers::default();
    let mut kept = stored.showings.into_iter();
    let (mut calls, mut showings) = (Vec::new(), Vec::new());
    for call in stored.calls {
        match &call {
            Call::Replay { text } => {
                let shown = kept.next().expect("a showing for each replay");
                if random.percent(40) {
                    let last = bound(&mut random, follower.state().position, text);
                    calls.push(Call::ReplayTo { last, text: text.clone() });
                    let piece = random.pick(&[text.len() + 1, shown.piece, 1 + text.len() / 3]);
                    showings.push(Showing { piece, lent: random.pick(&[ANSWER, shown.lent]) });
                    script::call(&mut follower, calls.last().expect("just made"));
                }
                showings.push(shown);
            }
            Call::Line { text, lent } if text.len() > 2 && random.percent(3) => {
                calls.push(Call::Line { text: text[..text.len() - 2].to_vec(), lent: *lent });
            }
            _ => (),
        }
        script::call(&mut follower, &call);
        calls.push(call);
    }
    Stored { calls, showings }
}

/// The frame that replay goes to: the position, below it, the next frames, one within the text, one above it.
fn bound(random: &mut Random, position: u32, text: &[u8]) -> u32 {
    let lines = text.iter().filter(|octet| **octet == b'\n').count() as u32;
    let within = position.saturating_add(1 + random.below(lines as usize + 1) as u32);
    let next = position.saturating_add(1);
    random.pick(&[0, position, next, next, within, within, within, u32::MAX])
}
