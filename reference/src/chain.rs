//! Any number of failovers (document 02, T-14): a session whose engine is replaced again and again, each time by
//! restore of an image saved earlier in the run and replay, beside the same calls without a break.

use crate::cases::given;
use crate::engine::{journal, Engine};
use crate::frame::number;
use crate::generate;
use crate::heard::{Host, Turned};
use crate::history::History;
use crate::limits::IMAGE;
use crate::random::Random;
use crate::script::{self, Call, Outcome};

/// Failovers of one chain, at most.
pub const MOST: usize = 10;

/// An image saved in the run: its octets, the frames executed and the additions accepted by then.
struct Image {
    octets: Vec<u8>,
    after: usize,
    added: usize,
}

/// Where chain and unbroken session differ.
#[derive(Clone, Copy, PartialEq, Eq, PartialOrd, Ord, Debug)]
pub enum Difference {
    /// A call is answered otherwise.
    Call,
    /// An image is refused, or a replay stops.
    Refused,
    /// A failover leaves another state than the one on duty, or the end is another.
    State,
    /// A replay gives other answers to the frames after its image.
    Answers,
    /// The events of a pair do not take turns, as a host reads them.
    Turns,
    /// A host reads other events than from the unbroken session.
    Events,
}

/// What one chain, or many, met.
#[derive(Clone, Copy, Default, PartialEq, Eq, Debug)]
pub struct Met {
    pub failovers: usize,
    pub frames: usize,
    pub replayed: usize,
    pub additions: usize,
    pub starts: usize,
    pub stops: usize,
    pub displaced: usize,
}

impl Met {
    pub fn and(self, other: Met) -> Met {
        Met {
            failovers: self.failovers + other.failovers,
            frames: self.frames + other.frames,
            replayed: self.replayed + other.replayed,
            additions: self.additions + other.additions,
            starts: self.starts + other.starts,
            stops: self.stops + other.stops,
            displaced: self.displaced + other.displaced,
        }
    }
}

/// A run: the engine on duty, and what was executed, accepted, given and saved so far.
struct Run<'a> {
    engine: &'a mut dyn Engine,
    random: Random,
    frames: Vec<Vec<u8>>,
    additions: Vec<(u32, Vec<u8>)>,
    /// Every answer given to a frame, by its call or by a replay.
    given: Vec<Vec<Vec<u8>>>,
    images: Vec<Image>,
    met: Met,
    found: Vec<Difference>,
}

/// The calls of a chain: a session, every fourth with a full table.
pub fn calls_of(seed: u64, index: u64) -> Vec<Call> {
    match index % 4 {
        0 => generate::full(seed, index, 160),
        _ => generate::session(seed, index, 200),
    }
}

/// The octets of a save.
fn saved(engine: &dyn Engine) -> Option<Vec<u8>> {
    let mut out = vec![0; IMAGE];
    let length = engine.save(&mut out).ok()?;
    out.truncate(length);
    Some(out)
}

impl Run<'_> {
    fn differ(&mut self, difference: Difference) {
        if !self.found.contains(&difference) {
            self.found.push(difference);
        }
    }

    fn save(&mut self) {
        if let Some(octets) = saved(self.engine) {
            self.images.push(Image { octets, after: self.frames.len(), added: self.additions.len() });
        }
    }

    /// A call of the session: its outcome is the unbroken session's.
    fn call(&mut self, call: &Call, expected: &Outcome) {
        let outcome = script::call(self.engine, call);
        if outcome != *expected {
            self.differ(Difference::Call);
        }
        if outcome.refusal != 0 {
            return;
        }
        match (call, given(call)) {
            (_, Some(octets)) => {
                self.frames.push(octets);
                self.given.push(vec![outcome.written.concat()]);
            }
            (Call::Edition { from, prefix }, _) => self.additions.push((*from, prefix.clone())),
            (Call::Save { .. }, _) => self.save(),
            _ => (),
        }
    }

    /// One line of the journal: its answer is given to the frame, where it is executed.
    fn line(&mut self, place: usize) {
        let before = self.engine.state().position;
        let replayed = self.engine.replay(&journal(&self.frames[place..=place], 1));
        if replayed.refusal.is_some() {
            self.differ(Difference::Refused);
        }
        let answer = replayed.answers.concat();
        if self.engine.state().position != before {
            self.given[place].push(answer);
            self.met.replayed += 1;
        } else if !answer.is_empty() {
            self.differ(Difference::Answers);
        }
    }

    /// Many lines at once: their answers in one.
    fn lines(&mut self, first: usize, end: usize) {
        let before = (self.engine.state().position as usize).max(first);
        let replayed = self.engine.replay(&journal(&self.frames[first..end], 1));
        if replayed.refusal.is_some() {
            self.differ(Difference::Refused);
        }
        let expected: Vec<u8> = (before..end).flat_map(|place| self.given[place][0].clone()).collect();
        if replayed.answers.concat() != expected {
            self.differ(Difference::Answers);
        }
        self.met.replayed += end.saturating_sub(before);
    }

    fn replay(&mut self, first: usize, end: usize, one_by_one: bool) {
        match one_by_one {
            true => (first..end).for_each(|place| self.line(place)),
            false => self.lines(first, end),
        }
    }

    /// Restore of any image saved so far, then replay from any j at most k + 1; the additions accepted after the image
    /// are given again, in order, each before its number is reached or the journal ends.
    fn fail_over(&mut self) {
        let on_duty = (saved(self.engine), self.engine.state());
        let chosen = self.random.below(self.images.len());
        let Image { octets, after, added } = &self.images[chosen];
        let (image, k, later) = (octets.clone(), *after, self.additions[*added..].to_vec());
        if self.engine.restore(&image).is_err() {
            self.differ(Difference::Refused);
        }
        let mut at = self.random.below(k + 1);
        let one_by_one = self.random.percent(50);
        for (from, prefix) in later {
            let most = at + self.frames[at..].iter().take_while(|octets| number(octets) < from).count();
            let until = at + self.random.below(most - at + 1);
            self.replay(at, until, one_by_one);
            at = until;
            if self.engine.add_edition(from, &prefix).is_err() {
                self.differ(Difference::Refused);
            }
        }
        self.replay(at, self.frames.len(), one_by_one);
        if (saved(self.engine), self.engine.state()) != on_duty {
            self.differ(Difference::State);
        }
        self.met.failovers += 1;
    }

    /// Each frame's answer taken once, out of those given for it.
    fn taken(&mut self) -> Vec<Vec<u8>> {
        let random = &mut self.random;
        self.given.iter().map(|answers| answers[random.below(answers.len())].clone()).collect()
    }
}

/// The unbroken session of the calls, by the history rule: outcomes, answers, state.
fn unbroken(calls: &[Call]) -> (Vec<Outcome>, Vec<Vec<u8>>, History) {
    let mut engine = History::default();
    let outcomes: Vec<Outcome> = calls.iter().map(|call| script::call(&mut engine, call)).collect();
    let executed = calls.iter().zip(&outcomes).filter(|(call, o)| given(call).is_some() && o.refusal == 0);
    let answers = executed.map(|(_, outcome)| outcome.written.concat()).collect();
    (outcomes, answers, engine)
}

/// One chain of up to ten failovers through an engine: what it met, and in what it differs from the unbroken session.
pub fn chain(engine: &mut dyn Engine, seed: u64, index: u64) -> (Met, Vec<Difference>) {
    let calls = calls_of(seed, index);
    let (outcomes, answers, end) = unbroken(&calls);
    let mut random = Random::of(seed ^ 0xC4A1, index);
    let most = random.between(1, MOST as i64) as usize;
    let (every, found) = (1 + calls.len() / (most + 1), Vec::new());
    let (frames, additions, given, images) = (vec![], vec![], vec![], vec![]);
    let mut run = Run { engine, random, frames, additions, given, images, met: Met::default(), found };
    for (call, expected) in calls.iter().zip(&outcomes) {
        run.call(call, expected);
        if run.random.below(every) == 0 || run.images.is_empty() {
            run.save();
        }
        if run.random.below(every) == 0 && run.met.failovers + 1 < most {
            run.fail_over();
        }
    }
    run.fail_over();
    if run.engine.state() != end.state() {
        run.differ(Difference::State);
    }
    let taken = run.taken();
    let host = |taken: &[Vec<u8>]| Host::of(&calls[0], &run.additions).hears(&run.frames, taken);
    let (heard, expected) = (host(&taken), host(&answers));
    let (met, mut found) = (run.met, run.found);
    if matches!(heard, Turned::Wrong { .. }) {
        found.push(Difference::Turns);
    }
    if heard != expected {
        found.push(Difference::Events);
    }
    let Turned::Right { starts, stops, displaced } = expected else { return (met, found) };
    (Met { frames: run.frames.len(), additions: run.additions.len(), starts, stops, displaced, ..met }, found)
}
