//! The proved static library (`include/bournejade.h`) in safe Rust: slices and a state of fixed size meet what the
//! header asks of a caller, so nothing here can be called wrongly.

pub mod compare;
pub mod engine;
mod foreign;
pub mod limit;
pub mod rows;
pub mod timing;

use reference::month::Row;

/// Octets of a state, and of the outputs that a frame's answer, an image and a line need.
pub const STATE: usize = 6987;
pub const ANSWER: usize = 2880;
pub const IMAGE: usize = 13162;
pub const LINE: usize = 527;

/// The number of a refusal.
pub type Refused = u8;

/// A state: any octets whatever.
#[derive(Clone, PartialEq, Eq)]
pub struct State {
    pub block: [u8; STATE],
}

/// What a replay of a piece of journal did: the characters read, the octets written, the refusal that stopped it (0: none).
#[derive(Clone, Copy, PartialEq, Eq, Debug)]
pub struct Ran {
    pub taken: usize,
    pub wrote: usize,
    pub refusal: Refused,
}

/// What the library says of itself: version, octets of a state, of an answer, of an image, of a line.
pub fn sizes() -> (u32, [usize; 4]) {
    foreign::sizes()
}

/// The line of a frame.
pub fn write_line(frame: &[u8], out: &mut [u8]) -> Result<usize, Refused> {
    foreign::write_line(frame, out)
}

/// Whether a pattern condition matches an advertisement and a scan response (1 or 0), and the comparisons made.
pub fn match_cost(condition: &[u8], adv: &[u8], scan: &[u8]) -> (u8, usize) {
    foreign::match_cost(condition, adv, scan)
}

impl State {
    /// A fresh state, or the blank one with refusal 9.
    pub fn begin(opcode: u16, prefix: &[u8]) -> (State, Refused) {
        let mut state = State { block: [0; STATE] };
        let refusal = foreign::begin(&mut state.block, opcode, prefix);
        (state, refusal)
    }

    /// The state of an image, or the blank one with refusal 10.
    pub fn restore(image: &[u8]) -> (State, Refused) {
        let mut state = State { block: [0; STATE] };
        let refusal = foreign::restore(&mut state.block, image);
        (state, refusal)
    }

    pub fn position(&self) -> u32 {
        foreign::position(&self.block)
    }

    /// How many monitors watch a device, and the lowest handle; 0 and 0 for none.
    pub fn watchers(&self, kind: u8, address: &[u8; 6]) -> (u32, u32) {
        foreign::watchers(&self.block, kind, address)
    }

    /// Add an edition of the prefix: the refusal's number, 0 if it is added.
    pub fn add_edition(&mut self, from: u32, prefix: &[u8]) -> Refused {
        foreign::add_edition(&mut self.block, from, prefix)
    }

    pub fn submit(&mut self, frame: &[u8], out: &mut [u8]) -> Result<usize, Refused> {
        foreign::submit(&mut self.block, frame, out)
    }

    pub fn submit_line(&mut self, line: &[u8], out: &mut [u8]) -> Result<usize, Refused> {
        foreign::submit_line(&mut self.block, line, out)
    }

    /// A frame as its line, counted in lent rows.
    pub fn count_line(&mut self, line: &[u8], out: &mut [u8], rows: &mut [Row]) -> Result<usize, Refused> {
        foreign::count_line(&mut self.block, line, out, rows)
    }

    pub fn save(&self, out: &mut [u8]) -> Result<usize, Refused> {
        foreign::save(&self.block, out)
    }

    pub fn replay(&mut self, journal: &[u8], out: &mut [u8]) -> Ran {
        foreign::replay(&mut self.block, journal, out)
    }
}
