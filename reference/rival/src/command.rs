//! Vendor commands.

use crate::answer::Answer;
use crate::engine::Engine;
use crate::monitor::Monitor;

/// What a command that fails answers.
#[derive(Clone, Copy, PartialEq, Eq, Debug)]
pub enum Status {
    Unknown = 0x01,
    NoRoom = 0x07,
    Disallowed = 0x0C,
    Invalid = 0x12,
}

const READ_FEATURES: u8 = 0x00;
const ADD: u8 = 0x03;
const CANCEL: u8 = 0x04;
const FILTER: u8 = 0x05;
const ADD_SECOND: u8 = 0x0F;

/// RSSI monitoring and advertisement monitoring of legacy advertisements, and version 2.
const FEATURES: u64 = 0x040C;

impl Engine {
    pub(crate) fn command(&mut self, parameters: &[u8], answer: &mut Answer) {
        let (&sub, rest) = parameters.split_first().expect("a list that is not empty");
        match sub {
            READ_FEATURES => self.features(rest, answer),
            ADD => self.add(sub, Monitor::read(rest), answer),
            ADD_SECOND => self.add(sub, Monitor::read_second(rest), answer),
            CANCEL => {
                let done = self.cancel(rest);
                self.complete(done, sub, answer);
            }
            FILTER => {
                let done = self.set_filter(rest);
                self.complete(done, sub, answer);
            }
            _ => self.complete(Err(Status::Unknown), sub, answer),
        }
    }

    fn complete(&self, done: Result<(), Status>, sub: u8, answer: &mut Answer) {
        answer.complete(self.opcode, &[done.map_or_else(|status| status as u8, |()| 0), sub], &[]);
    }

    fn features(&self, rest: &[u8], answer: &mut Answer) {
        if !rest.is_empty() {
            return self.complete(Err(Status::Invalid), READ_FEATURES, answer);
        }
        let [a, b, c, d, e, f, g, h] = FEATURES.to_le_bytes();
        let prefix = self.prefix();
        let returns = [0, READ_FEATURES, a, b, c, d, e, f, g, h, prefix.len() as u8];
        answer.complete(self.opcode, &returns, prefix);
    }

    /// The new handle is the lowest that is free.
    fn add(&mut self, sub: u8, monitor: Result<Monitor, Status>, answer: &mut Answer) {
        let free = self.monitors.iter().position(Option::is_none).ok_or(Status::NoRoom);
        let added = monitor.and_then(|monitor| {
            let handle = free?;
            self.monitors[handle] = Some(monitor);
            Ok(handle as u8)
        });
        let (status, handle) = added.map_or_else(|status| (status as u8, 0), |handle| (0, handle));
        answer.complete(self.opcode, &[status, sub, handle], &[]);
    }

    /// Forgets the monitor and its pairs.
    fn cancel(&mut self, rest: &[u8]) -> Result<(), Status> {
        let &[handle] = rest else { return Err(Status::Invalid) };
        let place = self.monitors.get_mut(usize::from(handle)).ok_or(Status::Invalid)?;
        place.take().ok_or(Status::Invalid)?;
        let mut kept = 0;
        for place in 0..self.held {
            if self.pairs[place].handle != handle {
                self.pairs[kept] = self.pairs[place];
                kept += 1;
            }
        }
        self.held = kept;
        Ok(())
    }

    fn set_filter(&mut self, rest: &[u8]) -> Result<(), Status> {
        let &[enable @ (0 | 1)] = rest else { return Err(Status::Invalid) };
        if self.filter == (enable == 1) {
            return Err(Status::Disallowed);
        }
        self.filter = enable == 1;
        Ok(())
    }
}
