//! The generator of sessions. A session has a theme, and an engine of its own follows it, so that the
//! generator knows the position, the live monitors and the pairs, and can aim at the edges.

mod broken;
pub mod conditions;
mod editions;
pub mod frames;
mod lines;
mod second;
pub mod states;
pub mod texts;
mod watching;
mod weights;

use crate::coverage;
use crate::engine::Engine;
use crate::lines as hexadecimal;
use crate::private::Key;
use crate::random::Random;
use crate::script::{self, Call};
use crate::state::{Device, State};
use crate::timers::Timers;

/// What a session is mostly about.
#[derive(Clone, Copy, PartialEq, Eq, Debug)]
enum Theme {
    Mixed,
    Commands,
    Conditions,
    Limits,
    Full,
    Second,
    Editions,
    Windows,
    LongTicks,
    Lines,
    Images,
    Failover,
}

/// One step of a session.
#[derive(Clone, Copy, PartialEq, Eq, Debug)]
enum Action {
    Add,
    AddEdge,
    Cancel,
    Filter,
    OtherCommand,
    Packet,
    NewDevice,
    Ticks,
    Save,
    BadLine,
    BadPayload,
    OtherOpcode,
    Seen,
    Gap,
    ShortOutput,
    Edition,
    // Not in a session of document 01:
    WriteLine,
    Failover,
    Restore,
    RestoreDamaged,
    Unsound,
    Replay,
    StartAgain,
    Ask,
}

pub struct Generator {
    random: Random,
    theme: Theme,
    /// Follows the calls made so far.
    follower: Timers,
    state: State,
    devices: Vec<Device>,
    /// A key and the address that its machine has now.
    private: Option<(Key, Device)>,
    /// The kind and payload of the last packet, for duplicates.
    last: Option<(u8, Vec<u8>)>,
    calls: Vec<Call>,
    /// Executed frames, for seen frames and replays.
    executed: Vec<Vec<u8>>,
}

/// A session of document 01: a start with settings in range, then frames and saves.
pub fn session(seed: u64, index: u64, most_calls: usize) -> Vec<Call> {
    use Theme::*;
    let mut random = Random::of(seed, index);
    let theme = random.pick(&[
        Mixed, Mixed, Commands, Conditions, Limits, Full, Second, Editions, Editions, Windows, Windows, Lines,
    ]);
    let least = if theme == Full { most_calls / 2 } else { 0 };
    let calls = random.between(least as i64, most_calls as i64) as usize;
    Generator::begin(random, theme).make(calls, false)
}

/// A session with the table full from its first frames on.
pub fn full(seed: u64, index: u64, calls: usize) -> Vec<Call> {
    Generator::begin(Random::of(seed, index), Theme::Full).make(calls, false)
}

/// A session with machines that change their addresses every quarter hour, 9,000 ticks: three addresses of one key, a
/// packet every half minute or so.
pub fn quarters(seed: u64, index: u64) -> Vec<Call> {
    let mut generator = Generator::begin(Random::of(seed, index), Theme::Mixed);
    let key = conditions::key(&mut generator.random);
    let interval = generator.random.pick(&[27, 30, 60]);
    for sampling in [0, generator.random.pick(&[10, 100, 0xFE]), 0xFF] {
        generator.command(&frames::monitor(-60, -80, interval, sampling, 3, &key));
    }
    generator.command(&[0x05, 1]);
    for _ in 0..3 {
        let device = states::private_device(&mut generator.random, &key);
        let mut left = 9000;
        while left > 0 {
            let rssi = generator.random.pick(&[-60, -61, -79, -80]);
            generator.give_packet(&device, &[2, 1, 6], rssi);
            let run = generator.random.between(100, 400).min(left);
            (0..run).for_each(|_| generator.tick());
            left -= run;
        }
    }
    coverage::take();
    generator.calls
}

/// A session that goes on from a random sound state instead of a fresh one.
pub fn session_from(seed: u64, index: u64, most_calls: usize) -> (State, Vec<Call>) {
    let mut random = Random::of(seed, index);
    let calls = random.between(0, most_calls as i64) as usize;
    let mut generator = Generator::begin(random, Theme::Mixed);
    let state = states::sound(&mut generator.random, &generator.devices);
    generator.follower.adopt(&state);
    generator.state = state.clone();
    let made = generator.make(calls + 1, false);
    (state, made[1..].to_vec())
}

/// A script with any calls at all.
pub fn script(seed: u64, index: u64) -> Vec<Call> {
    use Theme::*;
    let mut random = Random::of(seed, index);
    let theme = match random.below(100) {
        0..=9 => Mixed,
        10..=20 => Second,
        21..=29 => Commands,
        30..=35 => Editions,
        36..=44 => Conditions,
        45..=51 => Limits,
        52..=59 => Full,
        60..=69 => Windows,
        70..=71 => LongTicks,
        72..=81 => Lines,
        82..=91 => Images,
        _ => Failover,
    };
    let calls = match theme {
        LongTicks => random.between(40, 700),
        Limits => random.between(40, 90),
        Full => random.between(40, 120),
        _ => random.between(5, 90),
    };
    Generator::begin(random, theme).make(calls as usize, true)
}

impl Generator {
    fn begin(mut random: Random, theme: Theme) -> Generator {
        let opcode = random.pick(&[0xFC1E, 0xFC00, 0xFFFF, 0xFCF0]);
        let length = random.pick(&[0, 2, 2, 5, 32]);
        let prefix = random.octets(length);
        let mut generator = Generator {
            devices: states::devices(&mut random),
            random,
            theme,
            follower: Timers::default(),
            state: State::blank(),
            private: None,
            last: None,
            calls: Vec::new(),
            executed: Vec::new(),
        };
        generator.make_call(Call::Start { opcode, prefix });
        generator
    }

    /// Add a call, and follow it. The follower's steps are not counted as coverage of the session.
    fn make_call(&mut self, call: Call) {
        let before = self.state.position;
        script::call(&mut self.follower, &call);
        self.state = self.follower.state();
        let frame = match &call {
            Call::Octets { octets, .. } => Some(octets.clone()),
            Call::Line { text, .. } => hexadecimal::read(text, crate::fault::Fault::None),
            _ => None,
        };
        if let (Some(octets), true) = (frame, self.state.position != before) {
            self.executed.push(octets);
        }
        self.calls.push(call);
    }

    fn make(mut self, most: usize, any_call: bool) -> Vec<Call> {
        if matches!(self.theme, Theme::Limits) {
            self.fill();
        }
        if matches!(self.theme, Theme::Full) {
            self.fill_table();
        }
        if matches!(self.theme, Theme::Images) && any_call {
            self.restore_sound();
        }
        if matches!(self.theme, Theme::Editions) {
            self.fill_editions();
        }
        if matches!(self.theme, Theme::LongTicks) {
            self.add_slow();
        }
        while self.calls.len() < most {
            let action = self.action(any_call);
            self.act(action);
        }
        self.calls.truncate(most.max(1));
        coverage::take();
        self.calls
    }

    fn act(&mut self, action: Action) {
        match action {
            Action::Add => self.add(),
            Action::AddEdge => self.add_edge(),
            Action::Cancel => self.cancel(),
            Action::Filter => self.filter(),
            Action::OtherCommand => self.other_command(),
            Action::Packet => self.packet(),
            Action::NewDevice => self.new_device(),
            Action::Ticks => self.ticks(),
            Action::Save => self.save(),
            Action::BadLine => self.bad_line(),
            Action::BadPayload => self.bad_payload(),
            Action::OtherOpcode => self.other_opcode(),
            Action::Seen => self.seen(),
            Action::Gap => self.gap(),
            Action::ShortOutput => self.short_output(),
            Action::Edition => self.edition(),
            Action::WriteLine => self.write_line(),
            Action::Failover => self.make_call(Call::Failover),
            Action::Restore => self.restore_sound(),
            Action::RestoreDamaged => self.restore_damaged(),
            Action::Unsound => self.unsound(),
            Action::Replay => self.replay(),
            Action::StartAgain => self.start_again(),
            Action::Ask => self.ask(),
        }
    }
}
