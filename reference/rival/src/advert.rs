//! AD structures of a packet, found once and asked for by every monitor.

use crate::frame::Packet;
use crate::DATA;

/// A structure takes two octets at least; a packet has two texts.
const MOST: usize = 2 * (DATA / 2);

#[derive(Clone, Copy)]
struct Section {
    kind: u8,
    scan: bool,
    /// Its octets behind the AD type, in its text.
    from: u8,
    to: u8,
}

pub struct Sections<'a> {
    data: &'a [u8],
    scan: &'a [u8],
    list: [Section; MOST],
    count: usize,
}

impl<'a> Sections<'a> {
    pub fn of(packet: &Packet<'a>) -> Sections<'a> {
        let scan = packet.scan.unwrap_or(&[]);
        let list = [Section { kind: 0, scan: false, from: 0, to: 0 }; MOST];
        let mut sections = Sections { data: packet.data, scan, list, count: 0 };
        sections.find(packet.data, false);
        sections.find(scan, true);
        sections
    }

    /// A length of 0, or a structure past the end, ends the list.
    fn find(&mut self, text: &[u8], scan: bool) {
        let mut at = 0;
        while let Some(&[length, kind]) = text.get(at..at + 2) {
            let next = at + 1 + usize::from(length);
            if length == 0 || next > text.len() {
                return;
            }
            self.list[self.count] = Section { kind, scan, from: at as u8 + 2, to: next as u8 };
            self.count += 1;
            at = next;
        }
    }

    /// Whether a structure whose AD type fits has octets that fit.
    #[inline]
    pub fn any(&self, kind: impl Fn(u8) -> bool, octets: impl Fn(&[u8]) -> bool) -> bool {
        let of = |section: &Section| {
            let text = if section.scan { self.scan } else { self.data };
            octets(&text[usize::from(section.from)..usize::from(section.to)])
        };
        self.list[..self.count].iter().any(|section| kind(section.kind) && of(section))
    }
}
