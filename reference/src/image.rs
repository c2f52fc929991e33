//! Document 01, "The image": the text of a state, and reading records from a text line by line.

use crate::edition::{self, Edition};
use crate::fault::Fault;
use crate::index;
use crate::limits::{CONDITION, DATA, EDITIONS, MONITORS, PAIRS, PREFIX};
use crate::lines;
use crate::state::{Device, Monitor, Pair, State};

/// The text of a state: A0, the A4s, the A1s and A5s, the A3s, AF.
pub fn text(state: &State) -> Vec<u8> {
    let mut text = lines::write(&a0(state));
    for held in state.editions() {
        text.extend(lines::write(&edition::octets(held.from, held.prefix())));
    }
    for monitor in state.monitors() {
        text.extend(lines::write(&a1_or_a5(monitor)));
    }
    for pair in state.pairs() {
        text.extend(lines::write(&a3(pair)));
    }
    text.extend(lines::write(&[0xAF, state.monitor_count, state.pair_count]));
    text
}

/// A0: position (4), filter, opcode (2), prefix length, prefix.
fn a0(state: &State) -> Vec<u8> {
    let mut octets = vec![0xA0];
    octets.extend(state.position.to_le_bytes());
    octets.push(state.filter);
    octets.extend(state.opcode.to_le_bytes());
    octets.push(state.prefix_length);
    octets.extend(state.prefix());
    octets
}

/// A1: handle, high, low, interval, sampling, type, condition length, condition. A5: the same, then Monitor_options,
/// Advertisement_report_filtering_options, the peer's address (6), its type, its IRK (16).
fn a1_or_a5(m: &Monitor) -> Vec<u8> {
    let record = if m.second() { 0xA5 } else { 0xA1 };
    let mut octets =
        vec![record, m.handle, m.high as u8, m.low as u8, m.interval, m.sampling, m.kind, m.length];
    octets.extend(m.condition());
    if m.second() {
        octets.extend([m.options, m.reports]);
        octets.extend(m.peer.address);
        octets.push(m.peer.kind);
        octets.extend(m.irk);
    }
    octets
}

/// A3: handle, address type, address, ticks since a good packet (2), ticks in the window (1), packets (4),
/// sum (8), latest matching RSSI, event type, n, data of the latest packet in the window.
fn a3(p: &Pair) -> Vec<u8> {
    let mut octets = vec![0xA3, p.handle, p.device.kind];
    octets.extend(p.device.address);
    octets.extend(p.quiet.to_le_bytes());
    octets.push(p.window_ticks);
    octets.extend(p.packets.to_le_bytes());
    octets.extend(p.sum.to_le_bytes());
    octets.extend([p.rssi as u8, p.event_type, p.n]);
    octets.extend(p.latest());
    octets
}

/// The fields of one line, taken from the front.
struct Fields(Vec<u8>);

impl Fields {
    /// The fields of a line whose first octet is `kind`.
    fn of(line: &[u8], kind: u8) -> Option<Fields> {
        let octets = lines::read(line, Fault::None)?;
        (octets.first() == Some(&kind)).then(|| Fields(octets[1..].to_vec()))
    }

    fn take<const N: usize>(&mut self) -> Option<[u8; N]> {
        let octets = self.0.get(..N)?.try_into().unwrap();
        self.0.drain(..N);
        Some(octets)
    }

    fn octet(&mut self) -> Option<u8> {
        self.take::<1>().map(|[o]| o)
    }

    /// The rest: exactly `length` octets, in a place of N.
    fn rest<const N: usize>(&mut self, length: u8) -> Option<[u8; N]> {
        if self.0.len() != length as usize || self.0.len() > N {
            return None;
        }
        let mut place = [0; N];
        place[..self.0.len()].copy_from_slice(&self.0);
        Some(place)
    }
}

/// The records of a text, if it is lines A0, A4s, A1s and A5s, A3s, AF with right lengths and counts and nothing after
/// (READINGS 24). Whether they are those of a sound state is another question.
pub fn read(text: &[u8], fault: Fault) -> Option<State> {
    let mut rest = text.split_inclusive(|c| *c == lines::LF).peekable();
    let mut state = read_a0(rest.next()?)?;
    let mut editions = Vec::new();
    while let Some(edition) = rest.peek().and_then(|line| read_a4(line)) {
        editions.push(edition);
        rest.next();
    }
    if editions.is_empty() && fault == Fault::NoEditionsTaken {
        editions.push(Edition::of(0, state.prefix()));
    }
    let mut monitors = Vec::new();
    while let Some(monitor) = rest.peek().and_then(|line| read_a1(line).or_else(|| read_a5(line))) {
        monitors.push(monitor);
        rest.next();
    }
    let mut pairs = Vec::new();
    while let Some(pair) = rest.peek().and_then(|line| read_a3(line)) {
        pairs.push(pair);
        rest.next();
    }
    let mut end = Fields::of(rest.next()?, 0xAF)?;
    let counts = end.take::<2>()?;
    end.rest::<0>(0)?;
    if editions.len() > EDITIONS || monitors.len() > MONITORS || pairs.len() > PAIRS {
        return None;
    }
    state.hold_editions(&editions);
    state.monitor_count = monitors.len() as u8;
    state.monitors[..monitors.len()].copy_from_slice(&monitors);
    state.pair_count = pairs.len() as u8;
    state.pairs[..pairs.len()].copy_from_slice(&pairs);
    if fault != Fault::IndexNotRestored {
        state.hold_index(&index::of(&pairs, fault));
    }
    if counts != [state.monitor_count, state.pair_count] && fault != Fault::CountsNotRead {
        return None;
    }
    if rest.next().is_some() && fault != Fault::RestAfterEnd {
        return None;
    }
    Some(state)
}

fn read_a0(line: &[u8]) -> Option<State> {
    let mut fields = Fields::of(line, 0xA0)?;
    let mut state = State::blank();
    state.position = u32::from_le_bytes(fields.take()?);
    state.filter = fields.octet()?;
    state.opcode = u16::from_le_bytes(fields.take()?);
    state.prefix_length = fields.octet()?;
    state.prefix = fields.rest::<PREFIX>(state.prefix_length)?;
    Some(state)
}

/// A4: starting number (4), prefix length, prefix.
fn read_a4(line: &[u8]) -> Option<Edition> {
    let mut fields = Fields::of(line, 0xA4)?;
    let from = u32::from_le_bytes(fields.take()?);
    let length = fields.octet()?;
    Some(Edition { from, length, prefix: fields.rest(length)? })
}

fn read_a1(line: &[u8]) -> Option<Monitor> {
    let mut fields = Fields::of(line, 0xA1)?;
    let [handle, high, low, interval, sampling, kind, length] = fields.take()?;
    let octets = fields.rest::<CONDITION>(length)?;
    let (high, low) = (high as i8, low as i8);
    Some(Monitor { handle, high, low, interval, sampling, kind, length, octets, ..Monitor::NONE })
}

/// With options 0 it would be no monitor of version 2.
fn read_a5(line: &[u8]) -> Option<Monitor> {
    let Fields(all) = Fields::of(line, 0xA5)?;
    let (first, added) = all.split_at_checked(all.len().checked_sub(25)?)?;
    let mut monitor = read_a1(&lines::write(&[&[0xA1], first].concat()))?;
    let mut fields = Fields(added.to_vec());
    [monitor.options, monitor.reports] = fields.take()?;
    monitor.peer.address = fields.take()?;
    monitor.peer.kind = fields.octet()?;
    monitor.irk = fields.take()?;
    monitor.second().then_some(monitor)
}

fn read_a3(line: &[u8]) -> Option<Pair> {
    let mut fields = Fields::of(line, 0xA3)?;
    let handle = fields.octet()?;
    let device = Device { kind: fields.octet()?, address: fields.take()? };
    let quiet = u16::from_le_bytes(fields.take()?);
    let window_ticks = fields.octet()?;
    let packets = u32::from_le_bytes(fields.take()?);
    let sum = i64::from_le_bytes(fields.take()?);
    let [rssi, event_type, n] = fields.take()?;
    let data = fields.rest::<DATA>(n)?;
    Some(Pair { handle, device, quiet, window_ticks, packets, sum, rssi: rssi as i8, event_type, n, data })
}
