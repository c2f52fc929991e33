//! Document 01, "Sound", by other means than the first engine's: the state is what its own text says
//! (so that nothing unused is set), every monitor's 0x03 command is answered with success, and every
//! pair's fields are in the ranges that its monitor gives.

use super::reading;
use crate::command::{self, Change, View};
use crate::fault::Fault;
use crate::image;
use crate::state::{Monitor, Pair, State};
use std::collections::BTreeSet;

pub fn sound(state: &State) -> bool {
    state.monitor_count <= 16
        && state.pair_count <= 64
        && (1..=32).contains(&state.edition_count)
        && reading::records(&image::text(state)).as_ref() == Some(state)
        && (0xFC00..=0xFFFF).contains(&state.opcode)
        && state.prefix_length <= 32
        && editions_rise(state)
        && [0, 1].contains(&state.filter)
        && handles_rise(state)
        && state.monitors().iter().all(accepted)
        && state.pairs().iter().all(|pair| in_ranges(state, pair))
        && distinct(state)
}

/// Editions of at most 32 octets, the first from 0, each number above all before it; no edition not above the position
/// but later than the one whose prefix A0 has.
fn editions_rise(state: &State) -> bool {
    let numbers: Vec<u32> = state.editions().iter().map(|edition| edition.from).collect();
    let distinct: BTreeSet<u32> = numbers.iter().copied().collect();
    let passed = state.editions().iter().filter(|edition| edition.from <= state.position);
    numbers.first() == Some(&0)
        && distinct.into_iter().collect::<Vec<_>>() == numbers
        && state.editions().iter().all(|edition| edition.length <= 32)
        && passed.last().map(|edition| edition.prefix()) == Some(state.prefix())
}

/// Handles 0 to 15 in rising order: those live, taken in order of number, are the ones held.
fn handles_rise(state: &State) -> bool {
    let held: Vec<u8> = state.monitors().iter().map(|m| m.handle).collect();
    let rising: Vec<u8> = (0..16).filter(|handle| held.contains(handle)).collect();
    held == rising
}

/// Would 0x03, or 0x0F, accept this monitor, all handles below its own being live?
fn accepted(monitor: &Monitor) -> bool {
    let sub = if monitor.options == 0 { 0x03 } else { 0x0F };
    let mut parameters = vec![sub, monitor.high as u8, monitor.low as u8, monitor.interval, monitor.sampling];
    if sub == 0x0F {
        parameters.extend([monitor.options, monitor.reports]);
        parameters.extend(monitor.peer.address);
        parameters.push(monitor.peer.kind);
        parameters.extend(monitor.irk);
    }
    parameters.push(monitor.kind);
    parameters.extend(monitor.condition());
    let view = View { filter: 0, live: ((1u32 << monitor.handle) - 1) as u16, prefix: &[] };
    let answer = command::answer(&view, &parameters, Fault::None);
    answer.change == Change::Add(*monitor)
}

fn in_ranges(state: &State, pair: &Pair) -> bool {
    let Some(monitor) = state.monitors().iter().find(|m| m.handle == pair.handle) else { return false };
    let packets = pair.packets as i128;
    let samples = (1..=254).contains(&monitor.sampling);
    let most_window_ticks = if samples { monitor.sampling - 1 } else { 0 };
    let most_packets = if samples { state.position } else { 0 };
    // "For monitors that filter duplicates the A3 line's last fields keep that packet though packets is 0 (event type
    // 0xFF, n 0 while there is none)" (T-13). Version 1 filters none.
    let keeps = monitor.options != 0 && monitor.reports % 2 == 1;
    let (least_type, most_type, most_n) = match (keeps, pair.event_type) {
        (true, 0xFF) => (0xFF, 0xFF, 0),
        (true, _) => (0, 3, 31),
        _ if packets == 0 => (0, 0, 0),
        _ => (0, 3, 31),
    };
    let ranges: [(i128, i128, i128); 9] = [
        (pair.device.kind as i128, 0, 1),
        (pair.quiet as i128, 0, 10 * monitor.interval as i128 - 1),
        (pair.window_ticks as i128, 0, most_window_ticks as i128),
        (packets, 0, most_packets as i128),
        (pair.sum as i128, -127 * packets, 20 * packets),
        (pair.rssi as i128, -127, 20),
        (pair.event_type as i128, least_type, most_type),
        (pair.n as i128, 0, most_n),
        (pair.handle as i128, 0, 15),
    ];
    ranges.iter().all(|(value, least, most)| least <= value && value <= most)
}

fn distinct(state: &State) -> bool {
    let names: BTreeSet<_> = state.pairs().iter().map(|pair| (pair.handle, pair.device)).collect();
    names.len() == state.pairs().len()
}
