//! Wrong builds are noticed, and the sessions reach every rule.

use reference::compare;
use reference::fault::{Fault, FAULTS};
use reference::generate;
use reference::script;
use reference::timers::Timers;

const SEED: u64 = 7;
const MOST: u64 = 3000;

/// Each fault, switched on alone, makes a difference in one of the first sessions.
#[test]
fn every_wrong_build_is_noticed() {
    assert!(FAULTS.len() >= 40);
    let mut left: Vec<(Fault, &str)> = FAULTS.to_vec();
    for index in 0..MOST {
        if left.is_empty() {
            break;
        }
        let calls = generate::script(SEED, index);
        let expected = compare::expected(&calls);
        left.retain(|(fault, _)| {
            script::first_difference(&mut Timers::with_fault(*fault), &calls, &expected).is_none()
        });
    }
    assert_eq!(left, []);
}

#[test]
fn fault_numbers() {
    assert_eq!(Fault::of_number(0), Some(Fault::None));
    assert_eq!(Fault::of_number(1), Some(Fault::MeanCutsTowardZero));
    assert_eq!(Fault::of_number(FAULTS.len()), FAULTS.last().map(|(fault, _)| *fault));
    assert_eq!(Fault::of_number(FAULTS.len() + 1), None);
}

#[test]
fn every_rule_is_reached() {
    for (_, words, count) in compare::reached(SEED, MOST) {
        assert!(count > 0, "{words}");
    }
}
