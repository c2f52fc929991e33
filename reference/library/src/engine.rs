//! The library as an engine of the independent implementation's scripts. Journals are replayed in pieces.

use crate::{write_line, State, ANSWER};
use reference::block;
use reference::engine::{Engine, Replayed};
use reference::refusal::Refusal;
use reference::state::{Device, State as Record};

pub struct Library {
    pub state: State,
    /// How much of a journal is shown at a time, and the octets lent for its answers.
    pub piece: usize,
    pub lent: usize,
}

impl Default for Library {
    fn default() -> Library {
        Library { state: State::begin(0xFC00, &[]).0, piece: 64, lent: ANSWER }
    }
}

/// The refusal with this number.
pub fn refusal(number: u8) -> Refusal {
    use Refusal::*;
    let all =
        [Seen, Gap, ShortOutput, NotALine, Payload, OtherOpcode, Unsound, Settings, NotAnImage, ListFull, NotRising, LongPrefix];
    all.into_iter().find(|r| r.number() == number).expect("the library gives numbers of documents 01 and 02")
}

fn told<T>(answer: Result<T, u8>) -> Result<T, Refusal> {
    answer.map_err(refusal)
}

fn bare(number: u8) -> Result<(), Refusal> {
    match number {
        0 => Ok(()),
        _ => Err(refusal(number)),
    }
}

impl Library {
    /// The answers' octets in one, where the journal grows by a piece at a time and the output is emptied when it is full.
    fn pieces(&mut self, journal: &[u8]) -> (Vec<u8>, u8) {
        let mut out = vec![0; self.lent];
        let (mut answers, mut at, mut shown) = (Vec::new(), 0, 0);
        loop {
            let ran = self.state.replay(&journal[at..shown], &mut out);
            at += ran.taken;
            answers.extend(&out[..ran.wrote]);
            match ran.refusal {
                0 if shown == journal.len() => return (answers, 0),
                0 => shown = (shown + self.piece).min(journal.len()),
                3 => assert!(ran.taken > 0, "an emptied output of 2,880 octets takes a line"),
                other => return (answers, other),
            }
        }
    }
}

impl Engine for Library {
    fn adopt(&mut self, state: &Record) {
        self.state.block = block::of(state).expect("a record that a block holds");
    }

    fn state(&self) -> Record {
        block::state(&self.state.block)
    }

    fn ask(&self, device: &Device) -> Option<(u8, u8)> {
        match self.state.watchers(device.kind, &device.address) {
            (0, 0) => None,
            (count, lowest) => Some((count as u8, lowest as u8)),
        }
    }

    fn start(&mut self, opcode: u16, prefix: &[u8]) -> Result<(), Refusal> {
        let (state, number) = State::begin(opcode, prefix);
        self.state = state;
        bare(number)
    }

    fn add_edition(&mut self, from: u32, prefix: &[u8]) -> Result<(), Refusal> {
        bare(self.state.add_edition(from, prefix))
    }

    fn give(&mut self, given: Option<&[u8]>, out: &mut [u8]) -> Result<usize, Refusal> {
        told(self.state.submit(given.unwrap_or(&[]), out))
    }

    fn submit_line(&mut self, line: &[u8], out: &mut [u8]) -> Result<usize, Refusal> {
        told(self.state.submit_line(line, out))
    }

    fn save(&self, out: &mut [u8]) -> Result<usize, Refusal> {
        told(self.state.save(out))
    }

    fn restore(&mut self, text: &[u8]) -> Result<(), Refusal> {
        let (state, number) = State::restore(text);
        self.state = state;
        bare(number)
    }

    /// All answers as one.
    fn replay(&mut self, text: &[u8]) -> Replayed {
        let (answers, number) = self.pieces(text);
        Replayed { answers: vec![answers], refusal: bare(number).err() }
    }
}

/// The library's line of a frame, and what it leaves of the output.
pub fn line(frame: &[u8], out: &mut [u8]) -> Result<usize, Refusal> {
    told(write_line(frame, out))
}
