//! The two engines agree; what the second one remembers follows from its frames; refusals keep the state.

use reference::compare;
use reference::engine::Engine;
use reference::generate;
use reference::history::{Facts, History};
use reference::script::{self, Call};
use reference::timers::Timers;

const SEED: u64 = 2024;

#[test]
fn twenty_thousand_sessions() {
    assert_eq!(compare::session_disagreements(SEED, 20_000), []);
}

/// With restores, replays, written lines and states that are not sound among the calls.
#[test]
fn ten_thousand_scripts() {
    assert_eq!(compare::disagreements(SEED, 10_000), []);
}

#[test]
fn remembered_facts_follow_from_the_frames() {
    for index in 0..300 {
        let mut history = History::default();
        for call in generate::script(31, index) {
            script::call(&mut history, &call);
        }
        let (base, added, frames, facts) = history.remembered();
        if !frames.is_empty() {
            assert_eq!(*facts, Facts::of(base, added, frames));
        }
    }
}

/// All refusals but 9 and 10 return the given state; 9 and 10 the blank state.
#[test]
fn refusals_keep_the_state() {
    for index in 0..600 {
        for mut engine in [Box::new(Timers::default()) as Box<dyn Engine>, Box::new(History::default())] {
            for call in generate::script(32, index) {
                let before = engine.state();
                let outcome = script::call(engine.as_mut(), &call);
                assert!(outcome.rest_kept);
                match (outcome.refusal, &call) {
                    (_, Call::Replay { .. }) | (0, _) => (),
                    (9 | 10, _) => assert_eq!(engine.state(), reference::state::State::blank()),
                    _ => assert_eq!(engine.state(), before),
                }
            }
        }
    }
}

/// A frame given as octets or as its line has the same result.
#[test]
fn octets_and_lines() {
    for index in 0..600 {
        let calls = generate::script(33, index);
        let lines: Vec<Call> = calls
            .iter()
            .map(|call| match call {
                Call::Octets { octets, lent } => {
                    Call::Line { text: reference::lines::write(octets), lent: *lent }
                }
                other => other.clone(),
            })
            .collect();
        let expected = script::run(&mut Timers::default(), &calls);
        assert_eq!(script::first_difference(&mut Timers::default(), &lines, &expected), None);
    }
}

/// Cases for programs: both engines write the same (checked within), and every ending is met.
#[test]
fn cases_for_programs() {
    let mut endings = std::collections::BTreeSet::new();
    for index in 0..600 {
        let case = reference::case::case(34, index);
        let text = String::from_utf8(case.expected).unwrap();
        endings.insert(text.lines().last().unwrap().chars().take(2).collect::<String>());
    }
    for ending in ["AF", "2", "4", "10"] {
        assert!(endings.contains(ending), "{endings:?}");
    }
}
