//! Document 02, T-12: editions of the prefix, each with the frame number from which it holds.

use crate::fault::Fault;
use crate::limits::{EDITIONS, PREFIX};
use crate::lines;
use crate::state::State;

/// An A4 record: the frame number from which a prefix holds.
#[derive(Clone, Copy, PartialEq, Eq, Debug, Default)]
pub struct Edition {
    pub from: u32,
    pub length: u8,
    pub prefix: [u8; PREFIX],
}

impl Edition {
    /// An edition of a prefix of at most 32 octets.
    pub fn of(from: u32, prefix: &[u8]) -> Edition {
        let mut octets = [0; PREFIX];
        octets[..prefix.len()].copy_from_slice(prefix);
        Edition { from, length: prefix.len() as u8, prefix: octets }
    }

    /// The prefix, without the unused octets.
    pub fn prefix(&self) -> &[u8] {
        &self.prefix[..(self.length as usize).min(PREFIX)]
    }
}

/// The octets of an A4 line: starting number (4), prefix length, prefix.
pub fn octets(from: u32, prefix: &[u8]) -> Vec<u8> {
    let mut octets = vec![0xA4];
    octets.extend(from.to_le_bytes());
    octets.push(prefix.len() as u8);
    octets.extend(prefix);
    octets
}

/// An addition in the form of an A4 line: the starting number, and a prefix of any length that its octet gives.
pub fn addition(line: &[u8]) -> Option<(u32, Vec<u8>)> {
    let octets = lines::read(line, Fault::None)?;
    let (head, prefix) = octets.split_at_checked(6)?;
    let from = u32::from_le_bytes(head[1..5].try_into().unwrap());
    (head[0] == 0xA4 && head[5] as usize == prefix.len()).then(|| (from, prefix.to_vec()))
}

impl State {
    /// The used places; a count past the end is cut, so that an unsound state can be looked at.
    pub fn editions(&self) -> &[Edition] {
        &self.editions[..(self.edition_count as usize).min(EDITIONS)]
    }

    /// Hold these editions; every unused place is 0.
    pub fn hold_editions(&mut self, editions: &[Edition]) {
        self.editions = [Edition::default(); EDITIONS];
        self.editions[..editions.len()].copy_from_slice(editions);
        self.edition_count = editions.len() as u8;
    }

    /// Hold this edition's prefix as the one in force.
    pub fn hold_prefix(&mut self, edition: &Edition) {
        (self.prefix_length, self.prefix) = (edition.length, edition.prefix);
    }
}
