//! Document 01, "The image", the paragraph "Sound", clause by clause over the places of the state.

use crate::condition::{form, Form};
use crate::edition::Edition;
use crate::fault::Fault;
use crate::index::{self, Entry};
use crate::limits::{
    rssi_in_range, Seconds, CONDITION, DATA, EDITIONS, INTERVAL_LEAST, INTERVAL_MOST, MONITORS, OPCODE_LEAST,
    PAIRS, PREFIX,
};
use crate::options;
use crate::state::{Device, Monitor, Pair, State};

pub fn sound(state: &State, fault: Fault) -> bool {
    settings_in_range(state)
        && editions_sound(state, fault)
        && state.filter <= 1
        && monitors_sound(state, fault)
        && state.pair_count as usize <= PAIRS
        && state.pairs().iter().all(|pair| pair_sound(state, pair, fault))
        && pairs_distinct(state)
        && state.pairs[state.pair_count as usize..].iter().all(|place| *place == Pair::NONE)
        && (index_sound(state, fault) || fault == Fault::IndexNotChecked || index_differs(fault))
}

/// The index is the one worked out afresh from the pairs, every unused place 0 (T-02).
fn index_sound(state: &State, fault: Fault) -> bool {
    let index = index::of(state.pairs(), fault);
    state.index_count as usize == index.len()
        && state.index[..index.len()] == index
        && state.index[index.len()..].iter().all(|place| *place == Entry::default())
}

/// Wrong builds that take the index as it is.
fn index_differs(fault: Fault) -> bool {
    use Fault::*;
    matches!(fault, IndexNotRestored | IndexKeepsStopped | IndexKeepsDisplaced | IndexKeepsCancelled)
}

fn settings_in_range(state: &State) -> bool {
    state.opcode >= OPCODE_LEAST
        && state.prefix_length as usize <= PREFIX
        && zeros(&state.prefix[state.prefix_length as usize..])
}

/// Up to 32 editions of the prefix, the first from 0, strictly rising; the prefix held is that of the edition in
/// force at the position (T-12). Whether an edition is in force already is not asked.
fn editions_sound(state: &State, fault: Fault) -> bool {
    let count = state.edition_count as usize;
    let held = |edition: &Edition| {
        edition.length as usize <= PREFIX && zeros(&edition.prefix[edition.length as usize..])
    };
    let rising = || state.editions().windows(2).all(|two| two[0].from < two[1].from);
    (1..=EDITIONS).contains(&count)
        && state.editions[0].from == 0
        && (rising() || fault == Fault::EditionOrderNotChecked)
        && state.editions().iter().all(held)
        && state.editions[count..].iter().all(|place| *place == Edition::default())
        && (in_force_held(state) || another_held(fault))
}

/// Is the prefix that of the edition in force at the position?
fn in_force_held(state: &State) -> bool {
    let in_force = state.editions().iter().rev().find(|edition| edition.from <= state.position);
    in_force.is_some_and(|edition| (edition.length, edition.prefix) == (state.prefix_length, state.prefix))
}

/// Wrong builds that hold another edition's prefix.
fn another_held(fault: Fault) -> bool {
    use Fault::*;
    matches!(
        fault,
        NewestAtOnce
            | EditionOfReplayEnd
            | EditionOneLate
            | FirstInHead
            | RefusedAdditionUsed
            | InForceNotChecked
    )
}

fn zeros(octets: &[u8]) -> bool {
    octets.iter().all(|o| *o == 0)
}

/// Monitors in rising handle order, handles 0 to 15, every unused place 0.
fn monitors_sound(state: &State, fault: Fault) -> bool {
    let count = state.monitor_count as usize;
    count <= MONITORS
        && state.monitors().windows(2).all(|two| two[0].handle < two[1].handle)
        && state.monitors().iter().all(|m| (m.handle as usize) < MONITORS && monitor_sound(m, fault))
        && state.monitors[count..].iter().all(|place| *place == Monitor::NONE)
}

/// What version 2 adds: as 0x0F would accept it, or all 0.
fn options_sound(m: &Monitor, fault: Fault) -> bool {
    let none = m.reports == 0 && m.peer == Device::default() && m.irk == [0; 16];
    (m.second() && !options::forbidden(m, fault)) || (!m.second() && none)
}

/// Every monitor as 0x03 or 0x0F would accept it.
fn monitor_sound(m: &Monitor, fault: Fault) -> bool {
    let refused = fault == Fault::EqualRefused && m.high == m.low;
    let thresholds = rssi_in_range(m.high) && rssi_in_range(m.low) && m.high >= m.low && !refused;
    let above = fault == Fault::Threshold21 && (m.high == 21 || m.low == 21);
    let interval = (INTERVAL_LEAST..=INTERVAL_MOST).contains(&m.interval)
        || (fault == Fault::Interval0 && m.interval == 0)
        || (fault == Fault::Interval61 && m.interval == 61);
    (thresholds || above)
        && interval
        && m.length as usize <= CONDITION
        && form(m.kind, m.condition()) == Form::WellFormed
        && zeros(&m.octets[m.length as usize..])
        && options_sound(m, fault)
}

fn pair_sound(state: &State, pair: &Pair, fault: Fault) -> bool {
    let Some(monitor) = state.monitor(pair.handle) else { return false };
    let packets = pair.packets as i64;
    let packets_taken = match fault {
        Fault::PacketsNotChecked => true,
        Fault::CountWraps => packets == state.position as i64 + 1,
        _ => false,
    };
    let window = match monitor.period() {
        Some(period) => {
            pair.window_ticks < period
                && (pair.packets <= state.position || packets_taken)
                && pair.sum >= -127 * packets
                && pair.sum <= 20 * packets
        }
        None if monitor.sampling == 0xFF && fault == Fault::Period255 => true,
        None => pair.window_ticks == 0 && pair.packets == 0,
    };
    // A monitor that filters duplicates: the pair keeps a packet, or none (T-13).
    let filters = options::filters_duplicates(monitor);
    let no_packet = filters && pair.event_type == Pair::NO_PACKET && pair.n == 0;
    let limit = Seconds(monitor.interval).ticks().0;
    pair.device.kind <= 1
        && (rssi_in_range(pair.rssi) || fault == Fault::KeptNotChecked)
        && (pair.event_type <= 3 || no_packet)
        && pair.n as usize <= DATA
        && zeros(&pair.data[pair.n as usize..])
        && (pair.quiet < limit
            || (pair.quiet == limit && matches!(fault, Fault::QuietNotChecked | Fault::EndsLate)))
        && window
        && (pair.packets > 0 || (pair.sum == 0 && (filters || (pair.event_type == 0 && pair.n == 0))))
}

fn pairs_distinct(state: &State) -> bool {
    let mut keys = [(0, 0, [0; 6]); PAIRS];
    let pairs = state.pairs();
    for (key, pair) in keys.iter_mut().zip(pairs) {
        *key = (pair.handle, pair.device.kind, pair.device.address);
    }
    let keys = &mut keys[..pairs.len()];
    keys.sort_unstable();
    keys.windows(2).all(|two| two[0] != two[1])
}
