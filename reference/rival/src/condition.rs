//! Conditions: read once when a monitor is added, asked for by every packet.

use crate::advert::Sections;
use crate::aes::Cipher;
use crate::command::Status;
use crate::frame::Device;

/// Octets of the longest condition.
const LONGEST: usize = 64;

pub enum Condition {
    /// The patterns as they were sent, without their count.
    Patterns {
        octets: [u8; LONGEST],
        length: usize,
    },
    Uuid16([u8; 2]),
    Uuid32([u8; 4]),
    Uuid128([u8; 16]),
    Key(Cipher),
    Address(Device),
}

impl Condition {
    pub fn read(kind: u8, octets: &[u8]) -> Result<Condition, Status> {
        match kind {
            1 => patterns(octets),
            2 => uuid(octets).ok_or(Status::Invalid),
            3 => {
                let key = octets.try_into().map_err(|_| Status::Invalid)?;
                Ok(Condition::Key(Cipher::new(key)))
            }
            4 => match *octets {
                [kind @ (0 | 1), a, b, c, d, e, f] => {
                    Ok(Condition::Address(Device::new(kind, [a, b, c, d, e, f])))
                }
                _ => Err(Status::Invalid),
            },
            _ => Err(Status::Invalid),
        }
    }

    pub fn matches(&self, device: Device, sections: &Sections) -> bool {
        match self {
            Condition::Patterns { octets, length } => any_pattern(&octets[..*length], sections),
            Condition::Uuid16(uuid) => holds(uuid, 1, sections),
            Condition::Uuid32(uuid) => holds(uuid, 2, sections),
            Condition::Uuid128(uuid) => holds(uuid, 3, sections),
            Condition::Key(cipher) => cipher.resolves(device),
            Condition::Address(address) => *address == device,
        }
    }
}

/// A count of at least 1 and so many patterns, each a length, an AD type, a start byte and an octet at least.
fn patterns(octets: &[u8]) -> Result<Condition, Status> {
    let (&count, all) = octets.split_first().ok_or(Status::Invalid)?;
    let mut rest = all;
    for _ in 0..count {
        let (&length, behind) = rest.split_first().ok_or(Status::Invalid)?;
        if length < 3 {
            return Err(Status::Invalid);
        }
        (_, rest) = behind.split_at_checked(usize::from(length)).ok_or(Status::Invalid)?;
    }
    if count == 0 || !rest.is_empty() {
        return Err(Status::Invalid);
    }
    if octets.len() > LONGEST {
        return Err(Status::NoRoom);
    }
    let mut kept = [0; LONGEST];
    kept[..all.len()].copy_from_slice(all);
    Ok(Condition::Patterns { octets: kept, length: all.len() })
}

fn uuid(octets: &[u8]) -> Option<Condition> {
    let (kind, uuid) = octets.split_first()?;
    match kind {
        1 => uuid.try_into().ok().map(Condition::Uuid16),
        2 => uuid.try_into().ok().map(Condition::Uuid32),
        3 => uuid.try_into().ok().map(Condition::Uuid128),
        _ => None,
    }
}

/// One pattern is enough.
fn any_pattern(mut rest: &[u8], sections: &Sections) -> bool {
    while let [length, kind, start, behind @ ..] = rest {
        let (octets, next) = behind.split_at(usize::from(*length) - 2);
        let fits = |content: &[u8]| {
            let there = content.get(usize::from(*start)..);
            there.is_some_and(|there| there.starts_with(octets))
        };
        if sections.any(|ad_type| ad_type == *kind, fits) {
            return true;
        }
        rest = next;
    }
    false
}

/// Whether the UUID stands at a multiple of its size in one of the two AD types of its kind: incomplete and complete lists.
fn holds<const N: usize>(uuid: &[u8; N], kind: u8, sections: &Sections) -> bool {
    sections.any(|ad_type| ad_type >> 1 == kind, |content| content.as_chunks::<N>().0.contains(uuid))
}
