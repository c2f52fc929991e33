//! Images and journals as texts: sound, damaged, of unsound states, cut, joined.

use super::lines::spoil;
use super::{states, Generator};
use crate::image;
use crate::lines;
use crate::random::Random;
use crate::script::Call;

/// Damage a text of lines: change, cut, drop, add, double or swap something.
pub fn damage(random: &mut Random, text: &[u8]) -> Vec<u8> {
    let mut damaged = text.to_vec();
    if damaged.is_empty() {
        return b"\n".to_vec();
    }
    let place = random.below(damaged.len());
    let mut all: Vec<Vec<u8>> = lines::split(text).map(|line| line.to_vec()).collect();
    let line = random.below(all.len().max(1));
    match random.below(13) {
        0..=2 => damaged[place] = random.pick(b"0123456789ABCDEF"),
        3 => damaged[place] = random.pick(b"af \r\n\0G"),
        4 => damaged.truncate(place),
        5 => damaged.insert(place, random.pick(b"0\nF ")),
        6 => damaged = [&text[..place], &text[place + 1..]].concat(),
        7 => damaged.extend_from_slice(random.pick(&[&b"\n"[..], b"AF0000\n", b"00", b" "])),
        8 if !all.is_empty() => {
            all.remove(line);
            damaged = all.concat();
        }
        9 if !all.is_empty() => {
            let doubled = all[line].clone();
            all.insert(line, doubled);
            damaged = all.concat();
        }
        10 if all.len() > 1 => {
            let other = random.below(all.len());
            all.swap(line, other);
            damaged = all.concat();
        }
        11 if !all.is_empty() => {
            all[line] = spoil(random, &all[line]);
            damaged = all.concat();
        }
        _ => damaged.make_ascii_lowercase(),
    }
    damaged
}

/// The image as it was before editions: no A4 lines.
fn before_editions(text: &[u8]) -> Vec<u8> {
    lines::split(text).filter(|line| !line.starts_with(b"A4")).flatten().copied().collect()
}

impl Generator {
    pub(super) fn restore_sound(&mut self) {
        let state = match self.random.below(12) {
            0 => states::largest(&mut self.random),
            _ => states::sound(&mut self.random, &self.devices),
        };
        self.executed.clear();
        self.make_call(Call::Restore { text: image::text(&state) });
        if state.position < u32::MAX && self.random.percent(60) {
            self.tick();
        }
    }

    /// A damaged image, or one of a state that is not sound.
    pub(super) fn restore_damaged(&mut self) {
        let sound = match self.random.percent(50) {
            true => self.state.clone(),
            false => states::sound(&mut self.random, &self.devices),
        };
        let way = self.way();
        let text = match (self.random.percent(50), states::broken(&mut self.random, &sound, way)) {
            _ if self.random.percent(6) => before_editions(&image::text(&sound)),
            (true, Some(state)) => image::text(&state),
            _ => damage(&mut self.random, &image::text(&sound)),
        };
        self.make_call(Call::Restore { text });
        if self.state.position < u32::MAX && self.random.percent(50) {
            self.tick();
        }
        if self.state.opcode == 0xFC00 && self.random.percent(70) {
            self.restore_sound();
        }
    }

    /// Calls on a state that is not sound, then a sound one again.
    pub(super) fn unsound(&mut self) {
        let sound = self.state.clone();
        for _ in 0..4 {
            let way = self.way();
            if let Some(state) = states::broken(&mut self.random, &sound, way) {
                self.make_call(Call::Adopt(Box::new(state)));
                self.tick();
                self.packet();
                self.short_output();
                self.save();
                self.short_save();
                (0..2).for_each(|_| self.ask());
            }
        }
        self.make_call(Call::Adopt(Box::new(sound)));
    }

    /// A way of breaking a state; one packet more than the position, and a device twice in the index, more often than
    /// others.
    fn way(&mut self) -> usize {
        match self.random.below(100) {
            0..=11 => 33,
            12..=17 => 55,
            _ => self.random.below(states::WAYS),
        }
    }

    fn short_save(&mut self) {
        self.make_call(Call::Save { lent: 10 });
    }

    /// A journal: frames executed before, then new ones; sometimes damaged, with a final piece, or with a gap.
    pub(super) fn replay(&mut self) {
        let back = self.random.below(self.executed.len().min(6) + 1);
        let mut frames: Vec<Vec<u8>> = self.executed[self.executed.len() - back..].to_vec();
        let first = self.next_number();
        for new in 0..self.random.below(8) as u32 {
            let (kind, payload) = self.any_payload();
            let number = first.saturating_add(new);
            frames.push(super::frames::frame(kind, number, &payload));
        }
        if self.random.percent(15) && !frames.is_empty() {
            let place = self.random.below(frames.len());
            frames.remove(place);
        }
        let mut text: Vec<u8> = frames.iter().flat_map(|octets| lines::write(octets)).collect();
        if self.random.percent(25) {
            text = damage(&mut self.random, &text);
        }
        if self.random.percent(30) {
            let piece = lines::write(&self.any_frame());
            let length = match self.random.percent(50) {
                true => piece.len() - 1,
                false => self.random.below(piece.len()),
            };
            text.extend(&piece[..length]);
        }
        self.make_call(Call::Replay { text });
    }
}
