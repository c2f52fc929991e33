//! Editions of the prefix (document 02, T-12): those of sound states, and additions at the edges of 15, 14 and 13.

use super::Generator;
use crate::edition::Edition;
use crate::limits::{EDITIONS, PREFIX};
use crate::random::Random;
use crate::script::Call;
use crate::state::State;

/// Some editions behind the first, passed and to come; the prefix held is that of the one in force.
pub fn hold(random: &mut Random, state: &mut State) {
    let mut editions = vec![state.editions[0]];
    let position = state.position;
    let around = random.pick(&[3, 20, 5000]);
    let first = position.saturating_sub(random.below(around) as u32).max(1);
    let mut from = random.pick(&[1, first, first, position.max(1), position.saturating_add(1)]);
    for _ in 1..random.pick(&[1, 1, 2, 2, 3, 10, EDITIONS]) {
        let length = random.pick(&[0, 1, 2, 2, 5, PREFIX]);
        editions.push(Edition::of(from, &random.octets(length)));
        let step = random.pick(&[1, 1, 2, 7, around as u32]);
        match from.checked_add(step) {
            Some(next) => from = next,
            None => break,
        }
    }
    state.hold_editions(&editions);
    let in_force =
        editions.iter().filter(|edition| edition.from <= position).max_by_key(|edition| edition.from);
    state.hold_prefix(in_force.expect("the first starts from 0"));
}

/// 32 editions of 32 octets.
pub fn hold_most(random: &mut Random, state: &mut State) {
    let mut from = 0;
    let mut editions = Vec::new();
    for _ in 0..EDITIONS {
        editions.push(Edition::of(from, &random.octets(PREFIX)));
        from += 1 + random.below(60) as u32;
    }
    state.hold_editions(&editions);
    let in_force = editions.iter().filter(|edition| edition.from <= state.position).next_back();
    state.hold_prefix(in_force.expect("the first starts from 0"));
}

impl Generator {
    /// An addition for a frame that comes soon, further on, or at an edge of 14; its prefix at times at the edge of 15.
    pub(super) fn edition(&mut self) {
        let position = self.state.position;
        let last = self.state.editions().last().map_or(0, |edition| edition.from);
        let next = position.max(last).saturating_add(1);
        let random = &mut self.random;
        let from = match random.below(100) {
            0..=44 => next,
            45..=64 => next.saturating_add(random.below(4) as u32),
            65..=72 => next.saturating_add(random.below(40) as u32),
            73..=80 => position,
            81..=88 => last,
            89..=92 => position.saturating_add(1),
            93..=94 => last.saturating_sub(1),
            95..=96 => position.saturating_sub(1),
            97..=98 => 0,
            _ => random.pick(&[u32::MAX, u32::MAX - 1]),
        };
        let length = match random.below(100) {
            0..=9 => PREFIX + 1,
            10 => random.pick(&[PREFIX + 2, 64, 255]),
            _ => random.pick(&[0, 1, 2, 2, 3, 5, PREFIX - 1, PREFIX]),
        };
        let prefix = random.octets(length);
        self.make_call(Call::Edition { from, prefix });
        if self.state.position < u32::MAX && self.random.percent(30) {
            self.command(&[0x00]);
        }
    }

    /// A monitor and a device, and the list empty, half full, or nearly full.
    pub(super) fn fill_editions(&mut self) {
        let (kind, condition) = super::conditions::flags();
        let sampling = self.random.pick(&[0, 1, 0xFF]);
        self.command(&super::frames::monitor(-60, -80, 1, sampling, kind, &condition));
        for _ in 0..self.random.pick(&[0, 0, 1, 5, 15, 29, 30, 31]) {
            let last = self.state.editions().last().map_or(0, |edition| edition.from);
            let gap = self.random.pick(&[1, 1, 1, 2, 3]);
            let from = self.state.position.max(last).saturating_add(gap);
            let length = self.random.pick(&[0, 2, 3, PREFIX]);
            let prefix = self.random.octets(length);
            self.make_call(Call::Edition { from, prefix });
        }
    }
}
