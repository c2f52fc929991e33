//! The state as the block of 6,987 octets that the proved calls are given (docs/DESIGN.md, "The block"): the
//! fields of A0, a row for each handle, the pairs' rows in start order, their number, the
//! index' rows (address type, address, mask), their number, the editions' rows, their number; the monitors', pairs' and
//! editions' rows hold the fields of A5 (condition in 64 octets; the added ones 0 for an A1), of A3 and of A4 (prefix in
//! 32 octets), whatever is not in use is 0.
//!
//! `of` and `state` undo each other: `of(&state(&b))` is `Some(b)` for any octets, and where `of(&s)` is
//! `Some(b)`, `state(&b)` is `s`. So a block is sound exactly where its record is.

use crate::edition::Edition;
use crate::index::Entry;
use crate::limits::{EDITIONS, MONITORS, PAIRS};
use crate::state::{Device, Monitor, Pair, State};

/// Octets of the block.
pub const SIZE: usize = EDITION_COUNT_AT + 1;
/// Octets of it before the index: what the crates that know no index are given.
pub const CORE: usize = INDEX_AT;

const PREFIX_AT: usize = 8;
const MONITORS_AT: usize = 40;
const MONITOR_ROW: usize = 96;
const PAIRS_AT: usize = MONITORS_AT + MONITOR_ROW * MONITORS;
const PAIR_ROW: usize = 57;
const COUNT_AT: usize = PAIRS_AT + PAIR_ROW * PAIRS;
const INDEX_AT: usize = COUNT_AT + 1;
const INDEX_ROW: usize = 9;
const INDEX_COUNT_AT: usize = INDEX_AT + INDEX_ROW * PAIRS;
const EDITIONS_AT: usize = INDEX_COUNT_AT + 1;
const EDITION_ROW: usize = 37;
const EDITION_COUNT_AT: usize = EDITIONS_AT + EDITION_ROW * EDITIONS;

/// The number of monitors in the record of a block that has a row at another place than its handle's. No
/// sound state has so many; the rows are then held as they stand in the block, one place each.
const MISPLACED: u8 = 255;

/// The block of a record. None where no block holds it: two monitors with one handle, a handle above 15,
/// monitors not in rising order, an unused place of the monitors that is not 0, a number of monitors above 16.
pub fn of(state: &State) -> Option<[u8; SIZE]> {
    let mut block = [0; SIZE];
    block[..4].copy_from_slice(&state.position.to_le_bytes());
    block[4] = state.filter;
    block[5..7].copy_from_slice(&state.opcode.to_le_bytes());
    block[7] = state.prefix_length;
    block[PREFIX_AT..MONITORS_AT].copy_from_slice(&state.prefix);
    for (index, monitor) in state.monitors().iter().enumerate() {
        let place = if state.monitor_count == MISPLACED { index } else { monitor.handle as usize };
        if place >= MONITORS {
            return None;
        }
        let row = MONITORS_AT + MONITOR_ROW * place;
        block[row..row + MONITOR_ROW].copy_from_slice(&monitor_row(monitor));
    }
    for (place, pair) in state.pairs.iter().enumerate() {
        let row = PAIRS_AT + PAIR_ROW * place;
        block[row..row + PAIR_ROW].copy_from_slice(&pair_row(pair));
    }
    block[COUNT_AT] = state.pair_count;
    for (place, entry) in state.index.iter().enumerate() {
        let row = INDEX_AT + INDEX_ROW * place;
        block[row] = entry.device.kind;
        block[row + 1..row + 7].copy_from_slice(&entry.device.address);
        block[row + 7..row + 9].copy_from_slice(&entry.mask.to_le_bytes());
    }
    block[INDEX_COUNT_AT] = state.index_count;
    for (place, edition) in state.editions.iter().enumerate() {
        let row = EDITIONS_AT + EDITION_ROW * place;
        block[row..row + 4].copy_from_slice(&edition.from.to_le_bytes());
        block[row + 4] = edition.length;
        block[row + 5..row + EDITION_ROW].copy_from_slice(&edition.prefix);
    }
    block[EDITION_COUNT_AT] = state.edition_count;
    (self::state(&block) == *state).then_some(block)
}

/// The record that a block holds, whatever its octets. Octets that should be 0 and are not stand in the
/// record too, in places that are not in use.
pub fn state(block: &[u8; SIZE]) -> State {
    let mut state = State::blank();
    state.position = u32::from_le_bytes(part(block, 0));
    state.filter = block[4];
    state.opcode = u16::from_le_bytes(part(block, 5));
    state.prefix_length = block[7];
    state.prefix = part(block, PREFIX_AT);
    let rows: [Monitor; MONITORS] =
        std::array::from_fn(|h| monitor(&part(block, MONITORS_AT + MONITOR_ROW * h)));
    let used = || rows.iter().enumerate().filter(|(_, row)| **row != Monitor::NONE);
    if used().all(|(place, row)| row.handle as usize == place) {
        for (place, (_, row)) in used().enumerate() {
            state.monitors[place] = *row;
        }
        state.monitor_count = used().count() as u8;
    } else {
        state.monitors = rows;
        state.monitor_count = MISPLACED;
    }
    state.pairs = std::array::from_fn::<_, PAIRS, _>(|i| pair(&part(block, PAIRS_AT + PAIR_ROW * i)));
    state.pair_count = block[COUNT_AT];
    state.index = std::array::from_fn::<_, PAIRS, _>(|i| {
        let row = INDEX_AT + INDEX_ROW * i;
        let device = Device { kind: block[row], address: part(block, row + 1) };
        Entry { device, mask: u16::from_le_bytes(part(block, row + 7)) }
    });
    state.index_count = block[INDEX_COUNT_AT];
    state.editions = std::array::from_fn::<_, EDITIONS, _>(|i| {
        let row = EDITIONS_AT + EDITION_ROW * i;
        let from = u32::from_le_bytes(part(block, row));
        Edition { from, length: block[row + 4], prefix: part(block, row + 5) }
    });
    state.edition_count = block[EDITION_COUNT_AT];
    state
}

/// N octets from a place on.
fn part<const N: usize>(octets: &[u8], at: usize) -> [u8; N] {
    octets[at..at + N].try_into().expect("N octets")
}

/// Handle, high, low, interval, sampling, type, condition length, condition (64), options, report filter, the peer's
/// address (6) and its type, its IRK (16).
fn monitor_row(m: &Monitor) -> [u8; MONITOR_ROW] {
    let mut row = [0; MONITOR_ROW];
    row[..7].copy_from_slice(&[
        m.handle,
        m.high as u8,
        m.low as u8,
        m.interval,
        m.sampling,
        m.kind,
        m.length,
    ]);
    row[7..71].copy_from_slice(&m.octets);
    row[71..73].copy_from_slice(&[m.options, m.reports]);
    row[73..79].copy_from_slice(&m.peer.address);
    row[79] = m.peer.kind;
    row[80..].copy_from_slice(&m.irk);
    row
}

fn monitor(row: &[u8; MONITOR_ROW]) -> Monitor {
    Monitor {
        handle: row[0],
        high: row[1] as i8,
        low: row[2] as i8,
        interval: row[3],
        sampling: row[4],
        kind: row[5],
        length: row[6],
        octets: part(row, 7),
        options: row[71],
        reports: row[72],
        peer: Device { kind: row[79], address: part(row, 73) },
        irk: part(row, 80),
    }
}

/// Handle, address type, address, ticks since a good packet (2), ticks in the window (1), packets (4), sum (8),
/// latest matching RSSI, event type, n, data.
fn pair_row(p: &Pair) -> [u8; PAIR_ROW] {
    let mut row = [0; PAIR_ROW];
    row[..2].copy_from_slice(&[p.handle, p.device.kind]);
    row[2..8].copy_from_slice(&p.device.address);
    row[8..10].copy_from_slice(&p.quiet.to_le_bytes());
    row[10] = p.window_ticks;
    row[11..15].copy_from_slice(&p.packets.to_le_bytes());
    row[15..23].copy_from_slice(&p.sum.to_le_bytes());
    row[23..26].copy_from_slice(&[p.rssi as u8, p.event_type, p.n]);
    row[26..].copy_from_slice(&p.data);
    row
}

fn pair(row: &[u8; PAIR_ROW]) -> Pair {
    Pair {
        handle: row[0],
        device: Device { kind: row[1], address: part(row, 2) },
        quiet: u16::from_le_bytes(part(row, 8)),
        window_ticks: row[10],
        packets: u32::from_le_bytes(part(row, 11)),
        sum: i64::from_le_bytes(part(row, 15)),
        rssi: row[23] as i8,
        event_type: row[24],
        n: row[25],
        data: part(row, 26),
    }
}
