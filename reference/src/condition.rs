//! Document 01, "Conditions": the form of a condition, and whether a packet matches it. A packet of kind 04 has two
//! texts (document 02, T-06): a condition matches if either does.

use crate::coverage::{hit, Rule};
use crate::fault::Fault;
use crate::frame::Packet;
use crate::private;

/// What a condition of some type is.
#[derive(Clone, Copy, PartialEq, Eq, Debug)]
pub enum Form {
    WellFormed,
    Malformed,
    /// A type outside 1 to 4.
    NoType,
}

/// The form of a condition of this type.
pub fn form(kind: u8, condition: &[u8]) -> Form {
    let well = match kind {
        1 => patterns(condition).is_some(),
        2 => uuid(condition).is_some(),
        3 => condition.len() == 16,
        4 => condition.len() == 7 && condition[0] <= 1,
        _ => return Form::NoType,
    };
    if well {
        Form::WellFormed
    } else {
        Form::Malformed
    }
}

/// Does this packet match this well-formed condition?
pub fn matches(kind: u8, condition: &[u8], packet: &Packet, fault: Fault) -> bool {
    if let (Some(scan), Fault::TextsJoined) = (&packet.scan, fault) {
        let data = [&packet.data[..], scan].concat();
        return matches(kind, condition, &Packet { data, scan: None, ..packet.clone() }, fault);
    }
    match kind {
        1 => pattern_condition(condition, packet, fault),
        2 => uuid_condition(condition, packet, fault),
        3 => key_condition(condition, packet, fault),
        4 => address_condition(condition, packet, fault),
        _ => false,
    }
}

/// A pattern: AD type, start byte, octets.
pub struct Pattern<'a> {
    pub ad_type: u8,
    pub start: usize,
    pub octets: &'a [u8],
}

/// Type 1: a count of at least 1, then that many patterns, filling the condition exactly.
pub fn patterns(condition: &[u8]) -> Option<Vec<Pattern<'_>>> {
    let (count, mut rest) = condition.split_first()?;
    if *count == 0 {
        return None;
    }
    let mut list = Vec::with_capacity(4);
    for _ in 0..*count {
        let length = *rest.first()? as usize;
        if length < 3 || rest.len() < 1 + length {
            return None;
        }
        list.push(Pattern { ad_type: rest[1], start: rest[2] as usize, octets: &rest[3..1 + length] });
        rest = &rest[1 + length..];
    }
    rest.is_empty().then_some(list)
}

/// Where an AD structure stands.
#[derive(Clone, Copy, PartialEq, Eq, Debug)]
pub enum Text {
    Advertisement,
    ScanResponse,
}

/// An AD structure: where it stands, its AD type and the octets after it.
#[derive(Clone, Copy, PartialEq, Eq, Debug)]
pub struct Section<'a> {
    pub text: Text,
    pub ad_type: u8,
    pub content: &'a [u8],
}

/// The AD structures of an advertisement, then those of the scan response. Each text ends its own list.
pub fn sections<'a>(data: &'a [u8], scan: Option<&'a [u8]>, fault: Fault) -> Vec<Section<'a>> {
    let mut list = Vec::with_capacity(8);
    let to_its_end = walk(data, Text::Advertisement, &mut list, fault);
    let left_out = fault == Fault::ScanNotMatched || (fault == Fault::ScanListEnded && !to_its_end);
    match scan {
        Some(_) if left_out => (),
        Some(scan) if fault == Fault::ScanFirst => {
            let mut first = Vec::new();
            walk(scan, Text::ScanResponse, &mut first, fault);
            list.splice(0..0, first).for_each(drop);
        }
        Some(scan) => drop(walk(scan, Text::ScanResponse, &mut list, fault)),
        None => (),
    }
    list
}

/// AD structures: length L, then L octets, the first the AD type. L = 0 or a structure past the end ends
/// the list; earlier ones count. Whether the list went to the text's end.
fn walk<'a>(data: &'a [u8], text: Text, list: &mut Vec<Section<'a>>, fault: Fault) -> bool {
    let mut add = |octets: &'a [u8]| list.push(Section { text, ad_type: octets[0], content: &octets[1..] });
    let mut rest = data;
    while let Some((length, after)) = rest.split_first() {
        let length = *length as usize;
        if length == 0 && fault == Fault::ZeroLengthSkipped {
            rest = after;
            continue;
        }
        if length == 0 {
            hit(Rule::SectionsZero);
            return false;
        }
        if length > after.len() {
            hit(Rule::SectionsPastEnd);
            if fault == Fault::PastEndCounts && !after.is_empty() {
                add(after);
            }
            return false;
        }
        add(&after[..length]);
        rest = &after[length..];
    }
    true
}

/// The AD structures of a packet that have one of these AD types.
fn of_types<'a>(
    list: &'a [Section<'a>],
    ad_types: &'a [u8],
    fault: Fault,
) -> impl Iterator<Item = &'a Section<'a>> {
    let wanted = move |section: &&Section| ad_types.contains(&section.ad_type);
    let hidden = fault == Fault::ScanOnlyIfMissing
        && list.iter().filter(wanted).any(|section| section.text == Text::Advertisement);
    list.iter().filter(wanted).filter(move |section| !(hidden && section.text == Text::ScanResponse))
}

/// One matching pattern is enough. It matches if some AD structure of its type holds the octets at its
/// offset, 0 being the first octet after the AD type.
fn pattern_condition(condition: &[u8], packet: &Packet, fault: Fault) -> bool {
    let list = sections(&packet.data, packet.scan.as_deref(), fault);
    let one = |pattern: &Pattern| {
        let mut of_type = of_types(&list, std::slice::from_ref(&pattern.ad_type), fault);
        match fault {
            Fault::FirstSectionOnly => of_type.next().is_some_and(|s| holds(s.content, pattern)),
            Fault::PatternAnywhere => {
                of_type.any(|s| s.content.windows(pattern.octets.len()).any(|w| w == pattern.octets))
            }
            Fault::OffsetFromType => of_type.any(|s| {
                let moved = Pattern { start: pattern.start.saturating_sub(1), ..*pattern };
                pattern.start > 0 && holds(s.content, &moved)
            }),
            _ => of_type.any(|s| {
                let found = holds(s.content, pattern);
                if found && s.text == Text::ScanResponse {
                    hit(Rule::PatternInScan);
                }
                found
            }),
        }
    };
    let Some(all) = patterns(condition) else { return false };
    if fault == Fault::AllPatterns {
        return all.iter().all(one);
    }
    let found = all.iter().position(one);
    hit(match found {
        Some(0) => Rule::PatternMatch,
        Some(_) => Rule::PatternLater,
        None => Rule::PatternNone,
    });
    found.is_some()
}

/// Does the content hold the pattern's octets at its start byte?
fn holds(content: &[u8], pattern: &Pattern) -> bool {
    content.get(pattern.start..pattern.start + pattern.octets.len()) == Some(pattern.octets)
}

/// Type 2: UUID type 1, 2, 3, then 2, 4, 16 octets. Given as the two AD types looked in, and the octets.
fn uuid(condition: &[u8]) -> Option<([u8; 2], &[u8])> {
    let (uuid_type, octets) = condition.split_first()?;
    let (ad_types, size) = match uuid_type {
        1 => ([0x02, 0x03], 2),
        2 => ([0x04, 0x05], 4),
        3 => ([0x06, 0x07], 16),
        _ => return None,
    };
    (octets.len() == size).then_some((ad_types, octets))
}

/// Looked for in its two AD types, at offsets that are multiples of its size only.
fn uuid_condition(condition: &[u8], packet: &Packet, fault: Fault) -> bool {
    let Some((ad_types, octets)) = uuid(condition) else { return false };
    let size = octets.len();
    let list = sections(&packet.data, packet.scan.as_deref(), fault);
    for Section { text, ad_type, content } in of_types(&list, &ad_types, fault) {
        if fault == Fault::UuidCompleteOnly && *ad_type == ad_types[0] {
            continue;
        }
        if fault == Fault::UuidAtOddOffset && content.windows(size).any(|w| w == octets) {
            return true;
        }
        // `chunks` gives the offsets 0, size, 2 x size ..; a rest shorter than a UUID is no UUID.
        for (index, chunk) in content.chunks(size).enumerate() {
            if chunk.len() < size {
                hit(Rule::UuidRest);
                if fault == Fault::UuidInRest && octets.starts_with(chunk) {
                    return true;
                }
            } else if chunk == octets {
                hit(if index == 0 { Rule::UuidMatch } else { Rule::UuidLater });
                if *text == Text::ScanResponse {
                    hit(Rule::UuidInScan);
                }
                return true;
            }
        }
    }
    hit(Rule::UuidNone);
    false
}

/// Type 3: exactly 16 octets of key; a private address of it (document 02, T-03).
fn key_condition(condition: &[u8], packet: &Packet, fault: Fault) -> bool {
    let Ok(key) = condition.try_into() else { return false };
    let resolves = private::resolves(key, &packet.device, fault);
    hit(match (packet.device.kind, packet.device.address[5] >> 6) {
        (0, _) => Rule::KeyPublic,
        (_, 0b01) if resolves => Rule::KeyMatch,
        (_, 0b01) => Rule::KeyOther,
        _ => Rule::KeyTopBits,
    });
    resolves
}

/// Type 4: address type and address, equal to the packet's.
fn address_condition(condition: &[u8], packet: &Packet, fault: Fault) -> bool {
    let same_address = condition[1..] == packet.device.address;
    let same_type = condition[0] == packet.device.kind;
    hit(match (same_address, same_type) {
        (true, true) => Rule::AddressMatch,
        (true, false) => Rule::AddressOtherType,
        _ => Rule::AddressNone,
    });
    same_address && (same_type || fault == Fault::AddressTypeIgnored)
}
