//! Demand 3 on random sessions with additions, for every image, k and j, with both engines.

use reference::cases::given;
use reference::engine::{journal, Engine, Replayed};
use reference::frame::number;
use reference::generate;
use reference::history::History;
use reference::limits::IMAGE;
use reference::random::Random;
use reference::refusal::Refusal;
use reference::script::{self, Call};
use reference::state::State;
use reference::timers::Timers;
use std::thread;

/// A session run without a break: executed frames, their answers, accepted additions, and what was reached at the
/// beginning and after each frame and each addition.
struct Unbroken {
    frames: Vec<Vec<u8>>,
    answers: Vec<Vec<u8>>,
    additions: Vec<(u32, Vec<u8>)>,
    points: Vec<Point>,
}

/// After frame k and so many additions: a saved image, and the state.
struct Point {
    k: usize,
    added: usize,
    image: Vec<u8>,
    state: State,
}

fn image_of(engine: &dyn Engine) -> Vec<u8> {
    let mut out = vec![0; IMAGE];
    let length = engine.save(&mut out).expect("a session's states are sound");
    out.truncate(length);
    out
}

impl Unbroken {
    fn reached(&mut self, engine: &dyn Engine) {
        self.points.push(Point {
            k: self.frames.len(),
            added: self.additions.len(),
            image: image_of(engine),
            state: engine.state(),
        });
    }

    fn end(&self) -> &State {
        &self.points.last().unwrap().state
    }
}

fn run(engine: &mut dyn Engine, base: &State, calls: &[Call]) -> Unbroken {
    engine.adopt(base);
    let mut run = Unbroken { frames: vec![], answers: vec![], additions: vec![], points: vec![] };
    run.reached(engine);
    for call in calls {
        let before = engine.state();
        let outcome = script::call(engine, call);
        match (call, given(call)) {
            (_, Some(octets)) if outcome.refusal == 0 => {
                run.frames.push(octets);
                run.answers.push(outcome.written[0].clone());
                run.reached(engine);
            }
            (Call::Edition { from, prefix }, _) if outcome.refusal == 0 => {
                run.additions.push((*from, prefix.clone()));
                run.reached(engine);
            }
            // Refused calls and saves leave the state; a save writes the image of it.
            _ => {
                assert_eq!(engine.state(), before);
                if matches!(call, Call::Save { .. }) && outcome.refusal == 0 {
                    assert_eq!(outcome.written[0], run.points.last().unwrap().image);
                }
            }
        }
    }
    run
}

/// When additions are given again: all before the journal, each as late as can be, or in between.
#[derive(Clone, Copy, PartialEq, Eq, Debug)]
enum Again {
    First,
    Late,
    Between,
}

/// Replay the journal from frame j, with additions given again in their order, each before its number is reached or the
/// journal ends. The answers, and the refusal that stopped it.
fn replay(
    engine: &mut dyn Engine,
    frames: &[Vec<u8>],
    additions: &[(u32, Vec<u8>)],
    again: Again,
    random: &mut Random,
) -> Replayed {
    let mut all = Replayed { answers: Vec::new(), refusal: None };
    let mut at = 0;
    for (from, prefix) in additions {
        let most = at + frames[at..].iter().take_while(|octets| number(octets) < *from).count();
        let until = match again {
            Again::First => at,
            Again::Late => most,
            Again::Between => at + random.below(most - at + 1),
        };
        all.answers.extend(played(engine, &frames[at..until]).answers);
        at = until;
        engine.add_edition(*from, prefix).expect("it was accepted once");
    }
    let last = played(engine, &frames[at..]);
    all.answers.extend(last.answers);
    Replayed { refusal: last.refusal, ..all }
}

fn played(engine: &mut dyn Engine, frames: &[Vec<u8>]) -> Replayed {
    engine.replay(&journal(frames, 1))
}

/// For every image after frame k, before and after each addition, and the journal from every frame j.
fn demand_3(engine: &mut dyn Engine, base: &State, calls: &[Call]) -> (usize, usize) {
    let unbroken = run(engine, base, calls);
    let n = unbroken.frames.len();
    let mut random = Random::new(n as u64);
    for (place, point) in unbroken.points.iter().enumerate() {
        let k = point.k;
        for j in 1..=n + 1 {
            engine.restore(&point.image).expect("what was saved is an image");
            assert_eq!(engine.state(), point.state, "restore gives the state that was saved");
            let again = match j <= k + 1 {
                true => [Again::First, Again::Late, Again::Between][(place + j) % 3],
                false => Again::First,
            };
            let later = &unbroken.additions[point.added..];
            let replayed = replay(engine, &unbroken.frames[j - 1..], later, again, &mut random);
            if j <= k + 1 {
                assert_eq!(engine.state(), *unbroken.end(), "k {k} j {j} {again:?}");
                assert_eq!(replayed.answers, unbroken.answers[k..], "k {k} j {j} {again:?}");
                assert_eq!(replayed.refusal, None);
            } else {
                // The image's state, with the editions given again.
                let mut state = point.state.clone();
                state.hold_editions(unbroken.end().editions());
                assert_eq!(engine.state(), state);
                assert_eq!(replayed.answers, Vec::<Vec<u8>>::new());
                assert_eq!(replayed.refusal, (j <= n).then_some(Refusal::Gap));
            }
        }
    }
    // The pairs of the end state are those of the history rule.
    let mut history = History::default();
    assert_eq!(run(&mut history, base, calls).end(), unbroken.end());
    (n, unbroken.additions.len())
}

fn fresh(index: u64, most: usize) -> (State, Vec<Call>) {
    let calls = generate::session(21, index, most);
    let Call::Start { opcode, prefix } = &calls[0] else { panic!("a session starts") };
    (State::fresh(*opcode, prefix), calls[1..].to_vec())
}

/// Both halves of the work on a thread each; the numbers of frames and of additions met.
fn all(count: u64, work: impl Fn(u64) -> (usize, usize) + Sync) -> Vec<(usize, usize)> {
    thread::scope(|scope| {
        let half = |first: u64| {
            let work = &work;
            scope.spawn(move || (first..count).step_by(2).map(work).collect::<Vec<_>>())
        };
        let halves = [half(0), half(1)];
        halves.into_iter().flat_map(|h| h.join().unwrap()).collect()
    })
}

#[test]
fn every_k_and_j_with_stored_timers() {
    let sizes = all(400, |index| {
        let (base, calls) = fresh(index, 45);
        demand_3(&mut Timers::default(), &base, &calls)
    });
    assert!(sizes.iter().any(|(n, _)| *n == 0), "a session without frames");
    assert!(sizes.iter().any(|(n, _)| *n > 30));
    assert!(sizes.iter().filter(|(n, added)| *n > 0 && *added > 0).count() > 40, "{sizes:?}");
}

/// Sessions with many additions, and frames between them.
#[test]
fn every_k_and_j_with_additions() {
    let edition = |call: &&Call| matches!(call, Call::Edition { .. });
    let sessions = (4000..).map(|index| fresh(index, 45)).filter(|(_, calls)| {
        let additions = calls.iter().filter(edition).count();
        additions > 5 && calls.len() > additions + 8
    });
    let chosen: Vec<_> = sessions.take(60).collect();
    let sizes = all(60, |index| {
        let (base, calls) = &chosen[index as usize];
        demand_3(&mut Timers::default(), base, calls)
    });
    assert!(sizes.iter().filter(|(n, added)| *n > 5 && *added > 3).count() > 40, "{sizes:?}");
}

#[test]
fn every_k_and_j_by_the_history_rule() {
    all(150, |index| {
        let (base, calls) = fresh(1000 + index, 35);
        demand_3(&mut History::default(), &base, &calls)
    });
}

#[test]
fn every_k_and_j_from_any_sound_state() {
    let mut last = 0;
    for index in 0..150 {
        let (base, calls) = generate::session_from(22, index, 25);
        let (n, _) = demand_3(&mut Timers::default(), &base, &calls);
        last += (base.position.checked_add(n as u32) == Some(u32::MAX)) as u32;
    }
    assert!(last > 0, "sessions that reach the last frame number");
}

/// Two engines in turn: each takes up what the other saved.
#[test]
fn fail_over_and_back() {
    for index in 0..200 {
        let (base, calls) = fresh(2000 + index, 60);
        let unbroken = run(&mut Timers::default(), &base, &calls);
        let mut engines: [Box<dyn Engine>; 2] = [Box::new(Timers::default()), Box::new(History::default())];
        for (place, next) in unbroken.points.iter().enumerate().skip(1) {
            let before = &unbroken.points[place - 1];
            let engine = &mut engines[place % 2];
            engine.restore(&before.image).unwrap();
            let frames = &unbroken.frames[before.k..next.k];
            let additions = &unbroken.additions[before.added..next.added];
            let replayed = replay(engine.as_mut(), frames, additions, Again::First, &mut Random::new(index));
            assert_eq!(replayed.answers, unbroken.answers[before.k..next.k]);
            assert_eq!(image_of(engine.as_ref()), next.image);
        }
    }
}
