//! A host that gives frames to an engine and numbers them, for tests written by hand.
#![allow(dead_code)]

pub mod second;

use reference::engine::Engine;
use reference::generate::frames;
use reference::history::History;
use reference::limits::{ANSWER, IMAGE};
use reference::lines;
use reference::state::Device;
use reference::timers::Timers;

pub const OPCODE: u16 = 0xFC1E;
pub const PREFIX: [u8; 2] = [0x4D, 0x53];

/// The device of document 01's session.
pub const DEVICE: Device = Device { kind: 0, address: [6, 5, 4, 3, 2, 1] };
/// The condition of type 4 that names it.
pub const ADDRESS: [u8; 7] = [0, 6, 5, 4, 3, 2, 1];

/// Octets from hexadecimal; blanks are left out.
pub fn octets(text: &str) -> Vec<u8> {
    let digits: Vec<u32> =
        text.chars().filter(|c| !c.is_whitespace()).map(|c| c.to_digit(16).unwrap()).collect();
    digits.chunks(2).map(|two| (two[0] * 16 + two[1]) as u8).collect()
}

pub struct Host {
    pub engine: Box<dyn Engine>,
    pub next: u32,
}

/// Do the same with both engines, each started with document 01's settings.
pub fn both(mut work: impl FnMut(&mut Host)) {
    for engine in [Box::new(Timers::default()) as Box<dyn Engine>, Box::new(History::default())] {
        let mut host = Host { engine, next: 1 };
        host.engine.start(OPCODE, &PREFIX).unwrap();
        work(&mut host);
    }
}

impl Host {
    /// Give octets: the answer, or the refusal's number.
    pub fn give(&mut self, octets: &[u8]) -> Result<Vec<u8>, u8> {
        self.give_lending(octets, ANSWER)
    }

    pub fn give_lending(&mut self, octets: &[u8], lent: usize) -> Result<Vec<u8>, u8> {
        let mut out = vec![0x77; lent];
        let result = self.engine.submit(octets, &mut out);
        let length = result.as_ref().map_or(0, |n| *n);
        assert!(out[length..].iter().all(|o| *o == 0x77), "octets past the written length stay");
        result.map(|n| out[..n].to_vec()).map_err(|r| r.number())
    }

    pub fn give_line(&mut self, text: &[u8]) -> Result<Vec<u8>, u8> {
        let mut out = vec![0x77; ANSWER];
        self.engine.submit_line(text, &mut out).map(|n| out[..n].to_vec()).map_err(|r| r.number())
    }

    fn execute(&mut self, kind: u8, payload: &[u8]) -> Vec<u8> {
        let answer = self.give(&frames::frame(kind, self.next, payload)).expect("an executed frame");
        self.next += 1;
        answer
    }

    /// Give a command: its return parameters.
    pub fn command(&mut self, parameters: &[u8]) -> Vec<u8> {
        let answer = self.execute(1, &frames::command(OPCODE, parameters));
        assert_eq!(answer[0], 0x0E);
        assert_eq!(answer[1] as usize, answer.len() - 2);
        assert_eq!(answer[2..5], [0x01, 0x1E, 0xFC]);
        answer[5..].to_vec()
    }

    pub fn add(
        &mut self,
        high: i8,
        low: i8,
        interval: u8,
        sampling: u8,
        kind: u8,
        condition: &[u8],
    ) -> Vec<u8> {
        self.command(&frames::monitor(high, low, interval, sampling, kind, condition))
    }

    /// A packet of event type 0.
    pub fn packet(&mut self, device: &Device, data: &[u8], rssi: i8) -> Vec<u8> {
        self.execute(2, &frames::packet(0, device, data, rssi))
    }

    /// A packet of kind 04 and this event type.
    pub fn scanned(
        &mut self,
        event_type: u8,
        device: &Device,
        data: &[u8],
        scan: &[u8],
        rssi: i8,
    ) -> Vec<u8> {
        self.execute(4, &frames::scanned(event_type, device, data, scan, rssi))
    }

    pub fn tick(&mut self) -> Vec<u8> {
        self.execute(3, &[])
    }

    /// This many ticks that write nothing.
    pub fn quiet_ticks(&mut self, count: usize) {
        for i in 0..count {
            assert_eq!(self.tick(), [], "tick {}", i + 1);
        }
    }

    /// Add an edition of the prefix: the refusal's number, 0 if it is added.
    pub fn edition(&mut self, from: u32, prefix: &[u8]) -> u8 {
        self.engine.add_edition(from, prefix).err().map_or(0, |refusal| refusal.number())
    }

    pub fn image(&self) -> Vec<u8> {
        let mut out = vec![0; IMAGE];
        let length = self.engine.save(&mut out).expect("a sound state");
        out.truncate(length);
        out
    }
}

/// A device event with document 01's prefix.
pub fn event(device: &Device, handle: u8, watched: u8) -> Vec<u8> {
    event_with(&PREFIX, device, handle, watched)
}

/// A device event with any prefix.
pub fn event_with(prefix: &[u8], device: &Device, handle: u8, watched: u8) -> Vec<u8> {
    let mut event = vec![0xFF, 10 + prefix.len() as u8];
    event.extend(prefix);
    event.extend([0x02, device.kind]);
    event.extend(device.address);
    event.extend([handle, watched]);
    event
}

/// A report of event type 0.
pub fn report(device: &Device, data: &[u8], rssi: i8) -> Vec<u8> {
    report_of(0, device, data, rssi)
}

/// A report of any event type.
pub fn report_of(event_type: u8, device: &Device, data: &[u8], rssi: i8) -> Vec<u8> {
    let mut report = vec![0x3E, 12 + data.len() as u8, 0x02, 0x01, event_type, device.kind];
    report.extend(device.address);
    report.push(data.len() as u8);
    report.extend(data);
    report.push(rssi as u8);
    report
}

pub fn line(octets: &[u8]) -> Vec<u8> {
    lines::write(octets)
}

/// The A4 line of document 01's prefix.
pub const FIRST: &str = "A400000000024D53\n";

/// What 00 returns with a prefix: features 0x040C.
pub fn features(prefix: &[u8]) -> Vec<u8> {
    [&octets("0000 0C04000000000000")[..], &[prefix.len() as u8], prefix].concat()
}

/// An addition that is refused with this number and changes nothing.
pub fn refused(host: &mut Host, from: u32, prefix: &[u8], number: u8) {
    let (state, image) = (host.engine.state(), host.image());
    assert_eq!(host.edition(from, prefix), number, "{from}, {} octets", prefix.len());
    assert_eq!(host.engine.state(), state);
    assert_eq!(host.image(), image);
}
