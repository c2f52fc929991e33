//! Random sessions through the rival and through the independent implementation: for every frame the same refusal, the same octets
//! written, the rest of the output as it was. Then all that was given, as one journal, replayed by the rival in turns.

use reference::engine::Engine as _;
use reference::fault::Fault;
use reference::generate;
use reference::limits::ANSWER;
use reference::lines;
use reference::script::{self, Call, Outcome};
use reference::timers::Timers;
use rival::{Engine, Refusal};

/// Calls of a session at most, but for the sessions of a quarter hour.
const CALLS: usize = 160;
/// One of so many sessions goes over quarter hours; one of so many ends with more ticks than any watch lasts.
const QUARTERS: u64 = 1000;
const LONG: u64 = 8;
const LONG_TICKS: usize = 610;
const TICKS: usize = 40;
/// A journal's last piece, without LF: it is not read, though it is no line.
const PIECE: &[u8; 2] = b"00";

/// What was compared.
#[derive(Clone, Copy, Default)]
pub struct Counts {
    pub sessions: u64,
    pub frames: u64,
    pub refusals: [u64; 7],
    pub octets: u64,
    pub full: u64,
    pub second: u64,
    pub keys: u64,
    pub scans: u64,
}

/// A session of a seed: what the generator gives, a full table in every fourth, then the filter on and ticks, so that what the
/// pairs hold is seen.
fn session(seed: u64, index: u64) -> Vec<Call> {
    let mut calls = match index {
        _ if index % QUARTERS == QUARTERS - 1 => generate::quarters(seed, index),
        _ if index % 4 == 3 => generate::full(seed, index, CALLS),
        _ => generate::session(seed, index, CALLS),
    };
    let mut other = Timers::default();
    calls.iter().for_each(|call| drop(script::call(&mut other, call)));
    let ticks = if index % LONG == 0 { LONG_TICKS } else { TICKS };
    let state = other.state();
    let enable = generate::frames::command(state.opcode, &[5, 1]);
    let payloads = std::iter::once((1, enable)).chain(std::iter::repeat_n((3, Vec::new()), ticks));
    for (number, (kind, payload)) in (1..).zip(payloads) {
        let octets = generate::frames::frame(kind, state.position.wrapping_add(number), &payload);
        calls.push(Call::Octets { octets, lent: ANSWER });
    }
    calls
}

/// The place of the first call at which the two differ, or that of the journal behind all.
pub fn first_difference(seed: u64, index: u64, fault: Fault, counts: &mut Counts) -> Option<usize> {
    let calls = session(seed, index);
    let mut rival = None;
    let mut other = Timers::with_fault(fault);
    counts.sessions += 1;
    for (place, call) in calls.iter().enumerate() {
        let given = match (call, &mut rival) {
            (Call::Start { opcode, prefix }, _) => {
                rival = Engine::fresh(*opcode, prefix).ok();
                script::call(&mut other, call);
                continue;
            }
            (Call::Octets { octets, lent }, Some(rival)) => lending(*lent, |out| rival.give(octets, out)),
            (Call::Line { text, lent }, Some(rival)) => lending(*lent, |out| rival.give_line(text, out)),
            _ => continue,
        };
        count(call, &given, &other, counts);
        if given != script::call(&mut other, call) {
            return Some(place);
        }
    }
    (!same_replay(&calls, fault, index)).then_some(calls.len())
}

fn count(call: &Call, given: &Outcome, other: &Timers, counts: &mut Counts) {
    counts.frames += 1;
    counts.refusals[usize::from(given.refusal)] += 1;
    counts.octets += given.written.iter().map(|w| w.len() as u64).sum::<u64>();
    let state = other.state();
    counts.full += u64::from(usize::from(state.pair_count) == reference::limits::PAIRS);
    counts.second += u64::from(state.monitors().iter().any(|m| m.second()));
    counts.keys += u64::from(state.monitors().iter().any(|m| m.kind == 3));
    counts.scans += match call {
        Call::Octets { octets, .. } => u64::from(octets.first() == Some(&4)),
        Call::Line { text, .. } => u64::from(text.starts_with(b"04")),
        _ => 0,
    };
}

/// The octets of an outcome as the independent implementation's scripts have them.
fn lending(lent: usize, make: impl FnOnce(&mut [u8]) -> Result<usize, Refusal>) -> Outcome {
    script::lending(lent, |out| make(out).map_err(theirs))
}

fn theirs(refusal: Refusal) -> reference::refusal::Refusal {
    use reference::refusal::Refusal as Theirs;
    match refusal {
        Refusal::Seen => Theirs::Seen,
        Refusal::Gap => Theirs::Gap,
        Refusal::ShortOutput => Theirs::ShortOutput,
        Refusal::NotALine => Theirs::NotALine,
        Refusal::Payload => Theirs::Payload,
        Refusal::OtherOpcode => Theirs::OtherOpcode,
        Refusal::Settings => Theirs::Settings,
    }
}

/// All that was given as one journal: the rival replays it with a small output, and goes on behind each refused line.
fn same_replay(calls: &[Call], fault: Fault, index: u64) -> bool {
    let Some(Call::Start { opcode, prefix }) = calls.first() else { return false };
    let Ok(mut rival) = Engine::fresh(*opcode, prefix) else { return false };
    let mut other = Timers::with_fault(fault);
    if other.start(*opcode, prefix).is_err() {
        return false;
    }
    let journal = journal(calls);
    let mut out = vec![0; ANSWER + (index as usize) % 3200];
    let mut at = 0;
    loop {
        let ran = rival.replay(&journal[at..], &mut out);
        let part = &journal[at..at + ran.taken];
        let expected = other.replay(part);
        if expected.refusal.is_some() || expected.answers.concat() != out[..ran.wrote] {
            return false;
        }
        at += ran.taken;
        let next = journal[at..].split_inclusive(|c| *c == lines::LF).next().unwrap_or(&[]);
        match ran.refusal {
            None => return next.last() != Some(&lines::LF) && other.replay(next).refusal.is_none(),
            Some(Refusal::ShortOutput) if ran.taken > 0 => (),
            Some(refusal) => {
                if other.replay(next).refusal != Some(theirs(refusal)) {
                    return false;
                }
                at += next.len();
            }
        }
    }
}

fn journal(calls: &[Call]) -> Vec<u8> {
    let text = |call: &Call| match call {
        Call::Octets { octets, .. } => lines::write(octets),
        Call::Line { text, .. } => text.clone(),
        _ => Vec::new(),
    };
    calls.iter().flat_map(text).chain(*PIECE).collect()
}
