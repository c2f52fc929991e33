//! Records from a text, read as loosely as can be: each line by its first octet, whatever its place.
//! Whether the text is an image is decided by writing the records again and comparing.

use crate::edition::Edition;
use crate::fault::Fault;
use crate::limits::{EDITIONS, MONITORS, PAIRS};
use crate::lines;
use crate::state::{Device, Monitor, Pair, State};

/// The state that the lines of a text speak of, if every line has its fields.
pub fn records(text: &[u8]) -> Option<State> {
    let mut state = State::blank();
    state.edition_count = 0;
    for line in lines::split(text) {
        let octets = lines::read(line, Fault::None)?;
        // Fields are read where they stand; a place past the end of the line is 0.
        let at = |place: usize| octets.get(place).copied().unwrap_or(0);
        match at(0) {
            0xA0 => head(&mut state, at),
            0xA4 => {
                let place = state.edition_count as usize;
                if place == EDITIONS {
                    return None;
                }
                state.editions[place] = edition(at);
                state.edition_count += 1;
            }
            record @ (0xA1 | 0xA5) => {
                let place = state.monitor_count as usize;
                if place == MONITORS {
                    return None;
                }
                state.monitors[place] = monitor(at, record == 0xA5);
                state.monitor_count += 1;
            }
            0xA3 => {
                let place = state.pair_count as usize;
                if place == PAIRS {
                    return None;
                }
                state.pairs[place] = pair(at);
                state.pair_count += 1;
            }
            _ => (),
        }
    }
    state.index_afresh();
    Some(state)
}

/// A little-endian number of `size` octets.
fn number(at: impl Fn(usize) -> u8, first: usize, size: usize) -> u64 {
    (0..size).rev().fold(0, |value, i| value << 8 | at(first + i) as u64)
}

/// `length` octets from `first`, at most N; the rest of the place is 0.
fn octets<const N: usize>(at: impl Fn(usize) -> u8, first: usize, length: u8) -> [u8; N] {
    std::array::from_fn(|i| if i < length as usize { at(first + i) } else { 0 })
}

fn head(state: &mut State, at: impl Fn(usize) -> u8 + Copy) {
    state.position = number(at, 1, 4) as u32;
    state.filter = at(5);
    state.opcode = number(at, 6, 2) as u16;
    state.prefix_length = at(8);
    state.prefix = octets(at, 9, at(8));
}

fn edition(at: impl Fn(usize) -> u8 + Copy) -> Edition {
    Edition { from: number(at, 1, 4) as u32, length: at(5), prefix: octets(at, 6, at(5)) }
}

fn monitor(at: impl Fn(usize) -> u8 + Copy, second: bool) -> Monitor {
    let added = |place: usize| if second { at(8 + at(7) as usize + place) } else { 0 };
    Monitor {
        handle: at(1),
        high: at(2) as i8,
        low: at(3) as i8,
        interval: at(4),
        sampling: at(5),
        kind: at(6),
        length: at(7),
        octets: octets(at, 8, at(7)),
        options: added(0),
        reports: added(1),
        peer: Device { kind: added(8), address: octets(added, 2, 6) },
        irk: octets(added, 9, 16),
    }
}

fn pair(at: impl Fn(usize) -> u8 + Copy) -> Pair {
    Pair {
        handle: at(1),
        device: Device { kind: at(2), address: octets(at, 3, 6) },
        quiet: number(at, 9, 2) as u16,
        window_ticks: at(11),
        packets: number(at, 12, 4) as u32,
        sum: number(at, 16, 8) as i64,
        rssi: at(24) as i8,
        event_type: at(25),
        n: at(26),
        data: octets(at, 27, at(26)),
    }
}
