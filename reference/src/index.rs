//! Document 02, T-02: beside the pairs an index by device, with a mask of the handles that have it under watch.

use crate::fault::Fault;
use crate::limits::PAIRS;
use crate::state::{Device, Pair, State};

/// A device and the handles that have it under watch.
#[derive(Clone, Copy, PartialEq, Eq, Debug, Default)]
pub struct Entry {
    pub device: Device,
    pub mask: u16,
}

/// The index worked out afresh from pairs: devices in the order of their first held pair.
pub fn of(pairs: &[Pair], fault: Fault) -> Vec<Entry> {
    let mut index: Vec<Entry> = Vec::new();
    for pair in pairs {
        // In a state that is not sound a handle may be any octet.
        let bit = 1u16.checked_shl(pair.handle as u32).unwrap_or(0);
        match index.iter().position(|entry| entry.device == pair.device) {
            Some(place) if fault == Fault::IndexByLatest => {
                let entry = index.remove(place);
                index.push(Entry { mask: entry.mask | bit, ..entry });
            }
            Some(place) => index[place].mask |= bit,
            None => index.push(Entry { device: pair.device, mask: bit }),
        }
    }
    index
}

/// Which monitors watch a device: how many, and the lowest handle; none if there is none. Reads the index alone: "in a
/// state that isn't sound, the first of at most 64 entries for that device answers".
pub fn ask(state: &State, device: &Device, fault: Fault) -> Option<(u8, u8)> {
    let entries = &state.index[..(state.index_count as usize).min(PAIRS)];
    let mut found = entries.iter().filter(|entry| match fault {
        Fault::AskWithoutType => entry.device.address == device.address,
        _ => entry.device == *device,
    });
    let entry = if fault == Fault::AskLast { found.next_back()? } else { found.next()? };
    let lowest = match fault {
        Fault::AskHighest => 15 - entry.mask.leading_zeros().min(15),
        _ => entry.mask.trailing_zeros(),
    };
    (entry.mask != 0).then_some((entry.mask.count_ones() as u8, lowest as u8))
}

impl State {
    /// Hold an index; every unused place is 0.
    pub fn hold_index(&mut self, index: &[Entry]) {
        self.index = [Entry::default(); PAIRS];
        self.index[..index.len()].copy_from_slice(index);
        self.index_count = index.len() as u8;
    }

    /// Hold the index of the pairs held.
    pub fn index_afresh(&mut self) {
        let index = of(self.pairs(), Fault::None);
        self.hold_index(&index);
    }
}
