//! Document 02, T-02: the index kept beside the pairs, and what it answers.

use super::{sound, Timers};
use crate::coverage::{hit, Rule};
use crate::frame::Packet;
use crate::index;
use crate::limits::PAIRS;
use crate::state::Device;

impl Timers {
    /// After pairs that started or ended: the index by device (T-02).
    pub(super) fn index_pairs(&mut self) {
        let index = index::of(self.state.pairs(), self.fault);
        self.state.hold_index(&index);
    }

    /// For a wrong build: the starts put into the index, the displaced pairs left in it.
    pub(super) fn index_started(&mut self, packet: &Packet) {
        let old = self.state.index[..self.state.index_count as usize].to_vec();
        self.index_pairs();
        let gone = old.into_iter().filter(|entry| entry.device != packet.device);
        for entry in gone {
            let count = self.state.index_count as usize;
            match self.state.index[..count].iter_mut().find(|e| e.device == entry.device) {
                Some(held) => held.mask |= entry.mask,
                None if count < PAIRS => {
                    self.state.index[count] = entry;
                    self.state.index_count += 1;
                }
                None => (),
            }
        }
    }

    /// Which monitors watch a device.
    pub(super) fn watchers(&self, device: &Device) -> Option<(u8, u8)> {
        let answer = index::ask(&self.state, device, self.fault);
        hit(match answer {
            None => Rule::AskNone,
            Some((1, _)) => Rule::AskOne,
            Some((16, _)) => Rule::AskAll,
            _ => Rule::AskSeveral,
        });
        if !sound(&self.state, self.fault) {
            hit(Rule::AskUnsound);
        }
        answer
    }
}
