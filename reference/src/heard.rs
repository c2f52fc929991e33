//! Events read from the octets of answers, as a host reads them, and whether those of a pair take turns (document
//! 02, T-14).

use crate::event;
use crate::fault::Fault;
use crate::frame::{self, number, Payload};
use crate::script::Call;
use crate::state::Device;
use std::collections::HashSet;

/// An event of a pair: its monitor's handle, its device, and whether it is a start.
#[derive(Clone, Copy, PartialEq, Eq, Debug)]
pub struct Event {
    pub handle: u8,
    pub device: Device,
    pub starts: bool,
}

/// The starts and stops in an answer: 0xFF, length, prefix, 0x02, address type, address, handle, 1 or 0.
pub fn heard(prefix: &[u8], answer: &[u8]) -> Vec<Event> {
    event::split(answer).into_iter().filter_map(|octets| device_event(prefix, octets)).collect()
}

fn device_event(prefix: &[u8], octets: &[u8]) -> Option<Event> {
    let parameters = octets.get(2..)?;
    let rest = parameters.strip_prefix(prefix)?;
    let &[0x02, kind, a, b, c, d, e, f, handle, state] = rest else { return None };
    let told = octets[0] == 0xFF && octets[1] as usize == parameters.len() && state <= 1;
    told.then_some(Event { handle, device: Device { kind, address: [a, b, c, d, e, f] }, starts: state == 1 })
}

/// What a host knows of the prefix: that of the settings, and the editions accepted, in rising order.
pub struct Host {
    editions: Vec<(u32, Vec<u8>)>,
}

/// The events of all frames: how many starts, stops at ticks and stops by packets, or the first frame whose event does
/// not follow.
#[derive(Clone, PartialEq, Eq, Debug)]
pub enum Turned {
    Right { starts: usize, stops: usize, displaced: usize },
    Wrong { frame: u32 },
}

impl Host {
    pub fn of(start: &Call, additions: &[(u32, Vec<u8>)]) -> Host {
        let prefix = match start {
            Call::Start { prefix, .. } => prefix.clone(),
            _ => Vec::new(),
        };
        let mut editions = vec![(0, prefix)];
        editions.extend(additions.iter().cloned());
        Host { editions }
    }

    /// The prefix of the edition with the greatest starting number not above the frame's.
    pub fn prefix(&self, frame: u32) -> &[u8] {
        let last = self.editions.iter().rfind(|(from, _)| *from <= frame);
        last.map_or(&[], |(_, prefix)| prefix)
    }

    /// Start, stop, start, stop, beginning with start, for each pair within one life of its monitor.
    pub fn hears(&self, frames: &[Vec<u8>], answers: &[Vec<u8>]) -> Turned {
        let mut going: HashSet<(u8, u8, [u8; 6])> = HashSet::new();
        let (mut starts, mut stops, mut displaced) = (0, 0, 0);
        for (octets, answer) in frames.iter().zip(answers) {
            let frame = number(octets);
            if let Some(handle) = life(octets, answer) {
                going.retain(|pair| pair.0 != handle);
            }
            for event in heard(self.prefix(frame), answer) {
                let pair = (event.handle, event.device.kind, event.device.address);
                let follows = if event.starts { going.insert(pair) } else { going.remove(&pair) };
                if !follows {
                    return Turned::Wrong { frame };
                }
                let tick = octets[0] == 0x03;
                starts += event.starts as usize;
                stops += (!event.starts && tick) as usize;
                displaced += (!event.starts && !tick) as usize;
            }
        }
        Turned::Right { starts, stops, displaced }
    }
}

/// The handle whose life a command's answer begins or ends: 0x0E, length, 0x01, opcode, then 00, 03 or 0F, handle; or
/// 00, 04.
fn life(octets: &[u8], answer: &[u8]) -> Option<u8> {
    let Some(Payload::Command { parameters, .. }) = frame::payload(octets, Fault::None) else { return None };
    match (answer.get(5..), &parameters[..]) {
        (Some([0, 0x03 | 0x0F, handle]), _) => Some(*handle),
        (Some([0, 0x04]), [0x04, handle]) => Some(*handle),
        _ => None,
    }
}
