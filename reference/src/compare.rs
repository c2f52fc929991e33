//! What is compared with what: the two engines over random scripts, wrong builds with the right engine,
//! and the rules that the scripts reach. Work is shared among two threads.

use crate::coverage::{self, Rule, RULES};
use crate::fault::{Fault, FAULTS};
use crate::generate;
use crate::history::History;
use crate::script::{self, Call, Outcome};
use crate::timers::Timers;
use std::{panic, thread};

const THREADS: u64 = 2;

/// Do some work for every index below `count`, on two threads; the results of each thread.
fn shared<T: Send>(count: u64, work: impl Fn(u64, &mut T) + Sync, begin: impl Fn() -> T + Sync) -> Vec<T> {
    let (work, begin) = (&work, &begin);
    thread::scope(|scope| {
        let workers: Vec<_> = (0..THREADS)
            .map(|first| {
                scope.spawn(move || {
                    let mut result = begin();
                    (first..count).step_by(THREADS as usize).for_each(|index| work(index, &mut result));
                    result
                })
            })
            .collect();
        workers.into_iter().map(|w| w.join().expect("a thread ended early")).collect()
    })
}

/// What the engine by the history rule says of a script.
pub fn expected(calls: &[Call]) -> Vec<Outcome> {
    script::run(&mut History::default(), calls)
}

/// The sessions of document 01 (start, frames, saves) among `count` on which the two engines differ: index
/// and place of the call.
pub fn session_disagreements(seed: u64, count: u64) -> Vec<(u64, usize)> {
    differing(count, |index| generate::session(seed, index, 80))
}

/// The same for scripts with any calls.
pub fn disagreements(seed: u64, count: u64) -> Vec<(u64, usize)> {
    differing(count, |index| generate::script(seed, index))
}

fn differing(count: u64, calls_of: impl Fn(u64) -> Vec<Call> + Sync) -> Vec<(u64, usize)> {
    let work = |index: u64, found: &mut Vec<(u64, usize)>| {
        let calls = calls_of(index);
        let expected = expected(&calls);
        if let Some(place) = script::first_difference(&mut Timers::default(), &calls, &expected) {
            found.push((index, place));
        }
    };
    let mut all: Vec<_> = shared(count, work, Vec::new).concat();
    all.sort_unstable();
    all
}

/// For each fault, the number of scripts among `count` that notice it.
pub fn noticed(seed: u64, count: u64) -> Vec<(Fault, &'static str, u64)> {
    let work = |index: u64, counts: &mut Vec<u64>| {
        let calls = generate::script(seed, index);
        let expected = expected(&calls);
        for (place, (fault, _)) in FAULTS.iter().enumerate() {
            let differs = || script::first_difference(&mut Timers::with_fault(*fault), &calls, &expected).is_some();
            // A wrong build that ends its run, as one whose count would pass 4 octets does, is noticed.
            counts[place] += panic::catch_unwind(differs).unwrap_or(true) as u64;
        }
    };
    panic::set_hook(Box::new(|_| ()));
    let counts = shared(count, work, || vec![0; FAULTS.len()]);
    let _ = panic::take_hook();
    let total = |place: usize| counts.iter().map(|c| c[place]).sum();
    FAULTS.iter().enumerate().map(|(place, (fault, words))| (*fault, *words, total(place))).collect()
}

/// How often each rule is reached by `count` scripts.
pub fn reached(seed: u64, count: u64) -> Vec<(Rule, &'static str, u64)> {
    let work = |index: u64, counts: &mut Vec<u64>| {
        let calls = generate::script(seed, index);
        let outcomes = script::run(&mut Timers::default(), &calls);
        let rules = coverage::take();
        counts.iter_mut().zip(rules).for_each(|(sum, n)| *sum += n);
        for outcome in outcomes.iter().filter(|o| o.refusal > 0) {
            counts[coverage::refusal(outcome.refusal)] += 1;
        }
    };
    let counts = shared(count, work, || vec![0; RULES.len()]);
    let total = |place: usize| counts.iter().map(|c| c[place]).sum();
    RULES.iter().enumerate().map(|(place, (rule, words))| (*rule, *words, total(place))).collect()
}
