//! Chains of up to ten failovers (document 02, T-14) through both engines, and the wrong builds that they notice.

use reference::chain::{chain, Difference, Met, MOST};
use reference::engine::{replay_lines, Engine, Replayed};
use reference::fault::Fault;
use reference::frame::number;
use reference::heard::{heard, Event};
use reference::history::History;
use reference::index;
use reference::lines;
use reference::refusal::Refusal;
use reference::state::{Device, Pair, State};
use reference::timers::Timers;
use std::collections::HashMap;

fn met(make: impl Fn() -> Box<dyn Engine>, seed: u64, count: u64) -> (Met, Vec<Vec<Difference>>) {
    let ran: Vec<_> = (0..count).map(|index| chain(make().as_mut(), seed, index)).collect();
    let all = ran.iter().fold(Met::default(), |sum, (met, _)| sum.and(*met));
    (all, ran.into_iter().map(|(_, found)| found).collect())
}

#[test]
fn chains_are_unbroken_sessions() {
    let (met, found) = met(|| Box::new(Timers::default()), 51, 400);
    assert!(found.iter().all(|differences| differences.is_empty()), "{found:?}");
    assert!(met.failovers > 1200 && met.failovers <= 400 * MOST, "{met:?}");
    assert!(met.replayed > met.frames && met.additions > 100, "{met:?}");
    assert!(met.starts > 1000 && met.stops > 100 && met.displaced > 100, "{met:?}");
}

#[test]
fn chains_by_the_history_rule() {
    let (_, found) = met(|| Box::new(History::default()), 52, 60);
    assert!(found.iter().all(|differences| differences.is_empty()), "{found:?}");
}

/// What a wrong standby does.
#[derive(Clone, Copy, PartialEq, Eq)]
enum Wrong {
    /// A restored pair starts again: what is restored has no pairs.
    StartsAgain,
    /// A stop is given twice over a failover: replay answers a seen line once more.
    StopsTwice,
    /// A stop waits for a frame after the image: a restored pair has a tick less behind it.
    StopWaits,
}

struct Standby {
    engine: Timers,
    wrong: Wrong,
    answers: HashMap<u32, Vec<u8>>,
}

fn standby(wrong: Wrong) -> Box<dyn Engine> {
    Box::new(Standby { engine: Timers::default(), wrong, answers: HashMap::new() })
}

impl Engine for Standby {
    fn adopt(&mut self, state: &State) {
        self.engine.adopt(state);
    }

    fn state(&self) -> State {
        self.engine.state()
    }

    fn add_edition(&mut self, from: u32, prefix: &[u8]) -> Result<(), Refusal> {
        self.engine.add_edition(from, prefix)
    }

    fn give(&mut self, given: Option<&[u8]>, out: &mut [u8]) -> Result<usize, Refusal> {
        let length = self.engine.give(given, out)?;
        self.answers.insert(self.engine.state().position, out[..length].to_vec());
        Ok(length)
    }

    fn save(&self, out: &mut [u8]) -> Result<usize, Refusal> {
        self.engine.save(out)
    }

    fn restore(&mut self, text: &[u8]) -> Result<(), Refusal> {
        self.engine.restore(text)?;
        let mut state = self.engine.state();
        match self.wrong {
            Wrong::StartsAgain => state.pair_count = 0,
            Wrong::StopWaits => {
                state.pairs.iter_mut().for_each(|pair| pair.quiet = pair.quiet.saturating_sub(1))
            }
            Wrong::StopsTwice => (),
        }
        let used = state.pair_count as usize;
        state.pairs[used..].fill(Pair::NONE);
        let entries = index::of(state.pairs(), Fault::None);
        state.index = [index::Entry::default(); 64];
        state.index[..entries.len()].copy_from_slice(&entries);
        state.index_count = entries.len() as u8;
        self.engine.adopt(&state);
        Ok(())
    }

    fn replay(&mut self, text: &[u8]) -> Replayed {
        if self.wrong != Wrong::StopsTwice {
            return replay_lines(self, text);
        }
        let mut all = Replayed { answers: Vec::new(), refusal: None };
        for line in lines::split(text) {
            let seen = lines::read(line, Fault::None).map(|octets| number(&octets));
            let again =
                seen.filter(|n| *n <= self.engine.state().position).and_then(|n| self.answers.get(&n));
            all.answers.extend(again.cloned());
            let replayed = replay_lines(self, line);
            all.answers.extend(replayed.answers);
            all.refusal = all.refusal.or(replayed.refusal);
        }
        all
    }
}

/// How many of the chains differ in this.
fn differing(wrong: Wrong, difference: Difference) -> usize {
    let (_, found) = met(|| standby(wrong), 53, 120);
    found.iter().filter(|differences| differences.contains(&difference)).count()
}

#[test]
fn a_restored_pair_that_starts_again_is_noticed() {
    assert!(differing(Wrong::StartsAgain, Difference::State) > 20);
    assert!(differing(Wrong::StartsAgain, Difference::Turns) > 5, "a start follows a start");
}

#[test]
fn a_stop_given_twice_over_a_failover_is_noticed() {
    assert!(differing(Wrong::StopsTwice, Difference::Answers) > 20);
}

#[test]
fn a_stop_that_waits_for_a_frame_after_the_image_is_noticed() {
    assert!(differing(Wrong::StopWaits, Difference::State) > 20);
    assert!(differing(Wrong::StopWaits, Difference::Events) > 5);
}

/// Document 01, A session in full: what a host reads from its answers.
#[test]
fn a_host_reads_the_session_in_full() {
    let octets = |text: &str| lines::read(format!("{text}\n").as_bytes(), Fault::None).unwrap();
    let device = Device { kind: 0, address: [6, 5, 4, 3, 2, 1] };
    let (start, stop) = ("FF0C4D5302000605040302010001", "FF0C4D5302000605040302010000");
    let report = "3E0C0201000006050403020100C4";
    let event = |starts: bool| Event { handle: 0, device, starts };
    assert_eq!(heard(&[0x4D, 0x53], &octets(&format!("{start}{report}"))), [event(true)]);
    assert_eq!(heard(&[0x4D, 0x53], &octets(stop)), [event(false)]);
    assert_eq!(heard(&[0x4D, 0x53], &octets(&format!("{stop}{start}"))), [event(false), event(true)]);
    assert_eq!(heard(&[0x4D, 0x53], &octets("0E06011EFC000300")), []);
    assert_eq!(heard(&[0x4D, 0x54], &octets(start)), []);
}
