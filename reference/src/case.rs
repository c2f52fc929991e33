//! Cases for programs: an image, a journal, the additions since the image, and what is to be written.

use crate::cases::given;
use crate::edition;
use crate::engine::{journal, Engine};
use crate::generate::{self, states, texts};
use crate::history::History;
use crate::image;
use crate::lines;
use crate::program;
use crate::random::Random;
use crate::script::{self, Call};
use crate::state::State;
use crate::timers::Timers;
use crate::twin::Twin;

/// One case in so many has addresses that change every 9,000 ticks.
const QUARTERS: u64 = 1000;

/// One case in so many has the table full from its first frames on.
const FULL: u64 = 8;

pub struct Case {
    pub image: Vec<u8>,
    pub journal: Vec<u8>,
    /// In the form of A4 lines, to be given before the journal.
    pub additions: Vec<u8>,
    pub expected: Vec<u8>,
}

/// A session run without a break: its executed frames, its accepted additions as lines, and what was reached before and
/// after each.
struct Unbroken {
    frames: Vec<Vec<u8>>,
    additions: Vec<Vec<u8>>,
    points: Vec<Point>,
}

/// So many frames and additions before it, and the state.
struct Point {
    frames: usize,
    additions: usize,
    state: State,
}

/// The state and the calls of a case: from a sound state, where that may be, or from a start.
pub fn calls_of(seed: u64, index: u64, from_sound: bool) -> (State, Vec<Call>) {
    let calls = match index % QUARTERS {
        7 => generate::quarters(seed, index),
        place if place % FULL == 3 => generate::full(seed, index, 120),
        _ if from_sound => return generate::session_from(seed, index, 80),
        _ => generate::session(seed, index, 120),
    };
    let Call::Start { opcode, prefix } = &calls[0] else { panic!("a session starts") };
    (State::fresh(*opcode, prefix), calls[1..].to_vec())
}

/// Case `index` of a seed: an image after some frame k of a session, the journal from some frame j, and the additions
/// accepted after the image; each of them damaged at times. Both engines must say the same of it.
pub fn case(seed: u64, index: u64) -> Case {
    let mut random = Random::of(seed ^ 0xCA5E, index);
    let (base, calls) = calls_of(seed, index, random.percent(30));
    let run = unbroken(&base, &calls);
    let point = &run.points[random.below(run.points.len())];
    let j = match random.below(10) {
        0..=5 => 1 + random.below(point.frames + 1),
        6..=7 => point.frames + 1,
        _ => 1 + random.below(run.frames.len() + 1),
    };
    let mut image = image::text(&point.state);
    let mut text = journal(&run.frames, j);
    let mut additions = run.additions[point.additions..].concat();
    match random.below(24) {
        0 => image = texts::damage(&mut random, &image),
        1 => {
            let way = random.below(states::WAYS);
            image = states::broken(&mut random, &point.state, way).map_or(image, |state| image::text(&state));
        }
        2..=4 => text = texts::damage(&mut random, &text),
        5..=6 => text.extend(&lines::write(&[3, 1, 0, 0, 0])[..random.below(11)]),
        7..=8 if !additions.is_empty() => additions = texts::damage(&mut random, &additions),
        9..=10 => additions.extend(refused(&mut random, &point.state)),
        11 => additions.extend(&lines::write(&edition::octets(u32::MAX, &[1]))[..random.below(14)]),
        _ => (),
    }
    let expected = program::output(&mut Timers::default(), &image, &text, &additions);
    let again = program::output(&mut History::default(), &image, &text, &additions);
    assert_eq!(expected, again, "the engines differ: seed {seed}, case {index}");
    Case { image, journal: text, additions, expected }
}

/// Session `index` of a seed from its start, for the slow twin (document 02, T-07): a fresh image with all editions that the
/// session was given, and the whole journal; at times with seen lines behind it, a gap, damage or a last piece without LF.
/// Some sessions have more than 128 frames.
pub fn whole(seed: u64, index: u64) -> Case {
    let mut random = Random::of(seed ^ 0x7E11, index);
    let length = 60 + random.below(240);
    let calls = match index % FULL {
        3 => generate::full(seed, index, length),
        _ => generate::session(seed, index, length),
    };
    let Call::Start { opcode, prefix } = &calls[0] else { panic!("a session starts") };
    let base = State::fresh(*opcode, prefix);
    let run = unbroken(&base, &calls[1..]);
    let mut fresh = Timers::default();
    fresh.adopt(&base);
    for line in lines::split(&run.additions.concat()) {
        let (from, prefix) = edition::addition(line).expect("an addition's line");
        fresh.add_edition(from, &prefix).expect("accepted by the session");
    }
    let image = image::text(&fresh.state());
    let mut text = journal(&run.frames, 1);
    match random.below(10) {
        0 => text = texts::damage(&mut random, &text),
        1 => text.extend(journal(&run.frames, 1 + random.below(run.frames.len() + 1))),
        2 => text.extend(lines::write(&[3, 0xFF, 0xFF, 0, 0])),
        3 => text.extend(&lines::write(&[3, 1, 0, 0, 0])[..random.below(11)]),
        _ => (),
    }
    let expected = program::output(&mut Twin::default(), &image, &text, &[]);
    Case { image, journal: text, additions: Vec::new(), expected }
}

/// An addition that 14 or 15 refuses, or one for any frame.
fn refused(random: &mut Random, state: &State) -> Vec<u8> {
    let last = state.editions().last().map_or(0, |edition| edition.from);
    let any = random.below(300) as u32;
    let from = random.pick(&[0, last, state.position, state.position.saturating_add(1), any, u32::MAX]);
    let length = random.pick(&[0, 2, 32, 33, 33, 255]);
    lines::write(&edition::octets(from, &random.octets(length)))
}

fn unbroken(base: &State, calls: &[Call]) -> Unbroken {
    let mut engine = Timers::default();
    engine.adopt(base);
    let first = Point { frames: 0, additions: 0, state: base.clone() };
    let mut run = Unbroken { frames: Vec::new(), additions: Vec::new(), points: vec![first] };
    for call in calls {
        if script::call(&mut engine, call).refusal != 0 {
            continue;
        }
        match (call, given(call)) {
            (_, Some(octets)) => run.frames.push(octets),
            (Call::Edition { from, prefix }, _) => {
                run.additions.push(lines::write(&edition::octets(*from, prefix)));
            }
            _ => continue,
        }
        run.points.push(Point {
            frames: run.frames.len(),
            additions: run.additions.len(),
            state: engine.state(),
        });
    }
    run
}
