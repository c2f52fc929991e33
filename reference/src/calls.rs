//! Scripts for the program that makes every proved call (crates/calls_run): what it reads, and the line that it
//! must write of each script.
//!
//! A call is a tag, two numbers and the length of its octets, two octets each, low octet first; then its octets.
//! Tag 0 ends a script: an image is saved, and the line is written. The line has a digest over all that is seen of
//! the calls, how many they are, and how many octets they wrote.

use crate::aimed;
use crate::block;
use crate::cases::given;
use crate::coverage::{self, Rule};
use crate::engine::Engine;
use crate::fault::Fault;
use crate::generate;
use crate::history::History;
use crate::limits::{ANSWER, IMAGE, MONITORS};
use crate::lines;
use crate::random::Random;
use crate::script::{self, Call, Outcome};
use crate::timers::{self, Timers};

/// A script, and for each of its replays how the text is shown and the output is lent.
pub struct Stored {
    pub calls: Vec<Call>,
    pub showings: Vec<Showing>,
}

/// A journal shown in pieces of so many octets, into an output of so many.
#[derive(Clone, Copy, PartialEq, Eq, Debug)]
pub struct Showing {
    pub piece: usize,
    pub lent: usize,
}

/// Every size of a piece up to this one is used for a text that is longer.
pub const PIECES: usize = 700;
/// The longest output that the program lends.
const MOST_LENT: usize = IMAGE + 30;
/// The digest is a polynomial's value modulo this prime.
const PRIME: u64 = (1 << 54) - 33;

/// `count` scripts of a seed that are not too long.
pub fn scripts(seed: u64, count: usize) -> Vec<Stored> {
    let mut made: Vec<Stored> = Vec::new();
    let mut sizes = [false; PIECES + 1];
    let mut index = 0;
    while made.len() < count {
        let mut random = Random::of(seed ^ 0xCA11, index);
        let mut calls = generate::script(seed, index);
        index += 1;
        calls.retain(|call| !matches!(call, Call::Adopt(state) if block::of(state).is_none()));
        calls = calls.into_iter().flat_map(|call| tried(&mut random, call)).collect();
        if made.len() % 4 == 1 {
            calls = gathered(&mut random, &calls);
        }
        if wanted(made.len(), &calls) {
            let showings = showings(&mut random, &mut sizes, &calls);
            made.push(aimed::with(seed, made.len(), Stored { calls, showings }));
        }
    }
    made
}

/// Is this script taken for a place? Most are short, a fourth have journals; some restore images or take up
/// blocks, some are long, in some monitors are added while 16 are live, in some a duplicate for one monitor is reported for
/// another.
fn wanted(place: usize, calls: &[Call]) -> bool {
    let size: usize = calls.iter().map(|call| 7 + octets(call).len()).sum();
    let images = || calls.iter().any(|call| matches!(call, Call::Restore { .. } | Call::Adopt(_)));
    if place % 64 == 24 {
        return size < 5000 && crowded(calls) >= 3;
    }
    if place % 256 == 40 {
        return size < 5000 && reported_elsewhere(calls);
    }
    match place % 32 {
        0 => (4000..9000).contains(&size),
        4 | 12 | 20 | 28 => size < 4400 && images(),
        n if n % 4 == 1 => (600..1600).contains(&size),
        _ => size < 700,
    }
}

/// Is a duplicate for one monitor reported for another, whatever the filter is?
fn reported_elsewhere(calls: &[Call]) -> bool {
    coverage::take();
    script::run(&mut Timers::default(), calls);
    coverage::take()[Rule::DuplicateElsewhere as usize] > 0
}

/// How many frames that add a monitor are executed while 16 are live.
fn crowded(calls: &[Call]) -> usize {
    let mut follower = Timers::default();
    let mut adds = |call: &Call| {
        let full = follower.state().monitor_count as usize == MONITORS;
        let executed = script::call(&mut follower, call).refusal == 0;
        full && executed
            && given(call).is_some_and(|frame| frame[0] == 1 && matches!(frame.get(8), Some(0x03 | 0x0F)))
    };
    calls.iter().filter(|call| adds(call)).count()
}

/// A call; after a state that is not sound also a replay, an addition and a failover, which leave it as it is.
fn tried(random: &mut Random, call: Call) -> Vec<Call> {
    let Call::Adopt(state) = &call else { return vec![call] };
    if timers::sound(state, Fault::None) {
        return vec![call];
    }
    let number = state.position.wrapping_add(random.below(2) as u32);
    let mut text = lines::write(&[&[3], &number.to_le_bytes()[..]].concat());
    text.truncate(random.pick(&[0, 10, 11, 11, 11]));
    let addition = Call::Edition { from: number, prefix: Vec::new() };
    vec![call, Call::Replay { text }, addition, Call::Failover]
}

/// The script with frames that are executed or seen gathered into journals, which are replayed. An addition between them is
/// given before the journal.
fn gathered(random: &mut Random, calls: &[Call]) -> Vec<Call> {
    let mut follower = Timers::default();
    let (mut made, mut text) = (Vec::new(), Vec::new());
    let mut most = random.pick(&[30, 300, 900, 2000]);
    for call in calls {
        let refusal = script::call(&mut follower, call).refusal;
        if refusal == 0 && matches!(call, Call::Edition { .. }) {
            made.push(call.clone());
            continue;
        }
        let frame = given(call).filter(|_| refusal <= 1);
        if !text.is_empty() && (frame.is_none() || text.len() > most) {
            made.push(Call::Replay { text: std::mem::take(&mut text) });
            most = random.pick(&[30, 300, 900, 2000]);
        }
        match frame {
            Some(octets) => text.extend(lines::write(&octets)),
            None => made.push(call.clone()),
        }
    }
    made.push(Call::Replay { text });
    made
}

/// How the journals of a script are shown: short ones often in small pieces, the others in pieces of the largest size
/// below the text's length that was not used yet; one in ten in a single piece.
fn showings(random: &mut Random, used: &mut [bool], calls: &[Call]) -> Vec<Showing> {
    let mut showings = Vec::new();
    for call in calls {
        let Call::Replay { text } = call else { continue };
        let length = text.len();
        let any = random.between(ANSWER as i64, 6000) as usize;
        let lent = random.pick(&[ANSWER, ANSWER + 1, 6000, any]);
        let unused = (1..used.len().min(length)).rev().find(|size| !used[*size]);
        let piece = match (random.below(10), unused) {
            (0, _) => length + 1 + random.below(300),
            (1..=5, _) if length < 300 => 1 + random.below(40),
            (_, None) => 1 + random.below(length + 1),
            (_, Some(size)) => {
                used[size] = true;
                size
            }
        };
        showings.push(Showing { piece, lent });
    }
    showings
}

/// What both engines see of a script.
pub fn expected(calls: &[Call]) -> Vec<Outcome> {
    let outcomes = script::run(&mut Timers::default(), calls);
    assert_eq!(outcomes, script::run(&mut History::default(), calls), "the engines differ");
    outcomes
}

/// What a wrong build sees of it.
pub fn expected_wrong(calls: &[Call], fault: Fault) -> Vec<Outcome> {
    script::run(&mut Timers::with_fault(fault), calls)
}

/// The line that the program writes: of each call the octets written, their number, the refusal's number, and
/// whether the rest of the output stayed as it was.
pub fn line(outcomes: &[Outcome]) -> String {
    let (mut digest, mut total) = (0, 0);
    for outcome in outcomes {
        let mut seen = outcome.written.concat();
        let count = seen.len();
        seen.extend((count as u32).to_le_bytes());
        seen.extend([outcome.refusal, outcome.rest_kept as u8]);
        digest = seen.iter().fold(digest, |value: u64, octet| (value * 257 + *octet as u64 + 1) % PRIME);
        total += count;
    }
    format!("{digest:014x} {} {total}\n", outcomes.len())
}

/// What the program reads of a script.
pub fn input(stored: &Stored) -> Vec<u8> {
    let mut showings = stored.showings.iter();
    let mut input = Vec::new();
    for call in &stored.calls {
        let octets = octets(call);
        let (first, second) = match call {
            Call::Start { opcode, .. } => (*opcode as usize, 0),
            Call::Octets { lent, .. } | Call::Line { lent, .. } => (*lent, 0),
            Call::Save { lent } | Call::WriteLine { lent, .. } => (*lent, 0),
            Call::Failover => (IMAGE, 0),
            Call::Restore { .. } | Call::Adopt(_) | Call::Ask(_) | Call::Edition { .. } => (0, 0),
            Call::Replay { .. } | Call::ReplayTo { .. } => {
                let showing = showings.next().expect("a showing for each replay");
                (showing.lent, showing.piece)
            }
        };
        assert!(matches!(call, Call::Start { .. }) || first <= MOST_LENT);
        input.push(tag(call));
        for number in [first, second, octets.len()] {
            input.extend(u16::try_from(number).expect("a number of two octets").to_le_bytes());
        }
        input.extend(octets);
    }
    input.extend([0; 7]);
    input
}

/// The names of the calls, in the order of their tags from 1.
pub const NAMES: [&str; 12] = [
    "start",
    "octets",
    "line",
    "save",
    "write a line",
    "restore",
    "failover",
    "replay",
    "adopt",
    "replay to",
    "ask",
    "add an edition",
];

pub(crate) fn tag(call: &Call) -> u8 {
    match call {
        Call::Start { .. } => 1,
        Call::Octets { .. } => 2,
        Call::Line { .. } => 3,
        Call::Save { .. } => 4,
        Call::WriteLine { .. } => 5,
        Call::Restore { .. } => 6,
        Call::Failover => 7,
        Call::Replay { .. } => 8,
        Call::Adopt(_) => 9,
        Call::ReplayTo { .. } => 10,
        Call::Ask(_) => 11,
        Call::Edition { .. } => 12,
    }
}

/// The octets that a call gives.
fn octets(call: &Call) -> Vec<u8> {
    match call {
        Call::Start { prefix, .. } => prefix.clone(),
        Call::Octets { octets, .. } | Call::WriteLine { octets, .. } => octets.clone(),
        Call::Line { text, .. } | Call::Restore { text } | Call::Replay { text } => text.clone(),
        Call::ReplayTo { last, text } => [&last.to_le_bytes()[..], text].concat(),
        Call::Save { .. } | Call::Failover => Vec::new(),
        Call::Edition { from, prefix } => [&from.to_le_bytes()[..], prefix].concat(),
        Call::Ask(device) => [&[device.kind], &device.address[..]].concat(),
        Call::Adopt(state) => packed(&block::of(state).expect("states without a block were left out")),
    }
}

/// Octets with runs of zeros written short: a 0 and how many they are, 1 to 255.
fn packed(octets: &[u8]) -> Vec<u8> {
    let mut packed = Vec::new();
    let mut zeros = 0;
    for octet in octets {
        if zeros > 0 && (*octet != 0 || zeros == 255) {
            packed.extend([0, zeros]);
            zeros = 0;
        }
        match octet {
            0 => zeros += 1,
            _ => packed.push(*octet),
        }
    }
    if zeros > 0 {
        packed.extend([0, zeros]);
    }
    packed
}
