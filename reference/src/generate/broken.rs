//! States that are not sound: one clause of "Sound" broken.

use crate::condition::{form, Form};
use crate::edition::Edition;
use crate::index::Entry;
use crate::limits::{Seconds, CONDITION, PAIRS};
use crate::options;
use crate::random::Random;
use crate::state::{Monitor, Pair, State};

/// How many ways of breaking a state `broken` knows.
pub const WAYS: usize = 70;

/// A sound state with one clause of "Sound" broken in way `way`, if the state has the place for it.
pub fn broken(random: &mut Random, sound: &State, way: usize) -> Option<State> {
    let mut s = sound.clone();
    let (monitors, pairs) = (s.monitor_count as usize, s.pair_count as usize);
    let needs_monitor = (8..=21).contains(&way) || (44..=50).contains(&way);
    let needs_pair = (25..=43).contains(&way) || (51..=55).contains(&way);
    if needs_monitor && monitors == 0 || needs_pair && pairs == 0 {
        return None;
    }
    let m = random.below(monitors.max(1));
    let p = random.below(pairs.max(1));
    let watcher = s.monitor(s.pairs[p].handle).copied().unwrap_or(Monitor::NONE);
    let sampled = watcher.period();
    let keeps = options::filters_duplicates(&watcher);
    let second = s.monitors[m].second();
    let entries = s.index_count as usize;
    let i = random.below(entries.max(1));
    let editions = s.edition_count as usize;
    let e = 2 + random.below(editions.saturating_sub(2).max(1));
    match way {
        0 => s.opcode = random.pick(&[0xFBFF, 0]),
        1 => s.filter = random.pick(&[2, 255]),
        2 => s.prefix_length = 33,
        3 if s.prefix_length < 32 => s.prefix[31] = 1,
        4 => s.monitor_count = random.pick(&[17, 255]),
        5 => s.pair_count = random.pick(&[65, 255]),
        6 if monitors < 16 => s.monitors[15].high = 1,
        7 if pairs < 64 => s.pairs[63].data[30] = 1,
        8 if monitors > 1 => s.monitors.swap(0, 1),
        9 if monitors > 1 && pairs == 0 => s.monitors[1] = s.monitors[0],
        10 => s.monitors[monitors - 1].handle = random.pick(&[16, 255]),
        11 => (s.monitors[m].high, s.monitors[m].low) = (s.monitors[m].low, s.monitors[m].high),
        12 => s.monitors[m].high = random.pick(&[21, 127]),
        13 => s.monitors[m].low = -128,
        14 if pairs == 0 => s.monitors[m].interval = 0,
        15 => s.monitors[m].interval = random.pick(&[61, 255]),
        16 => s.monitors[m].kind = random.pick(&[0, 3, 5]),
        17 => s.monitors[m].octets[0] = s.monitors[m].octets[0].wrapping_add(5),
        18 => s.monitors[m].length = random.pick(&[65, 255]),
        19 if s.monitors[m].length < 64 => s.monitors[m].octets[63] = 1,
        20 => s.monitors[m].length -= 1,
        21 => s.monitors[m].high = s.monitors[m].low.saturating_sub(1),
        22 => s.pairs[63].handle ^= 0x10,
        23 if monitors > 0 => s.monitor_count -= 1,
        24 => s.prefix_length = 255,
        25 if pairs < 64 => {
            s.pairs[pairs] = s.pairs[p];
            s.pair_count += 1;
        }
        26 => s.pairs[p].handle = random.pick(&[16, 31, 255]),
        27 => s.pairs[p].device.kind = random.pick(&[2, 255]),
        28 => s.pairs[p].event_type = random.pick(if keeps { &[4, 254] } else { &[4, 255] }),
        29 => s.pairs[p].n = random.pick(&[32, 255]),
        30 => s.pairs[p].quiet = Seconds(watcher.interval).ticks().0,
        31 => s.pairs[p].quiet = u16::MAX,
        32 => s.pairs[p].window_ticks = sampled.unwrap_or(1),
        33 if s.position < u32::MAX => {
            s.pairs[p].packets = s.position + 1;
            s.pairs[p].sum = 0;
        }
        34 => s.pairs[p].sum = 20 * s.pairs[p].packets as i64 + 1,
        35 => s.pairs[p].sum = -127 * s.pairs[p].packets as i64 - 1,
        36 if sampled.is_none() => s.pairs[p].packets = 1.min(s.position),
        37 if s.pairs[p].packets == 0 && !keeps => s.pairs[p].event_type = 1,
        38 if s.pairs[p].packets == 0 && !keeps => s.pairs[p].n = 1,
        39 if s.pairs[p].n < 31 => s.pairs[p].data[30] = 1,
        40 => s.pairs[p].sum = random.pick(&[i64::MIN, i64::MAX]),
        42 => s.pairs[p].rssi = random.pick(&[21, 127, -128]),
        43 if keeps => (s.pairs[p].event_type, s.pairs[p].n) = (Pair::NO_PACKET, 1),
        44 if second => s.monitors[m].options = random.pick(&[0x00, 0x40, 0xC0]),
        45 if second && s.monitors[m].options & 0x0A != 0 => s.monitors[m].irk = [0; 16],
        46 if second => {
            // A condition of type 4 beside the peer.
            let held = &mut s.monitors[m];
            (held.kind, held.length, held.octets) = (4, 7, [0; CONDITION]);
            held.options |= random.pick(&[0x01, 0x04]);
        }
        47 if second && s.monitors[m].sampling != 0 => s.monitors[m].reports |= 1,
        48 if second => s.monitors[m].peer.kind = random.pick(&[2, 255]),
        49 if !second => s.monitors[m].peer.address[random.below(6)] = 1,
        50 if !second => {
            (s.monitors[m].reports, s.monitors[m].irk[15]) = random.pick(&[(6, 0), (0, 1), (1, 0)]);
        }
        51 => s.index[i].mask ^= 1 << random.below(16),
        52 if entries > 1 => s.index.swap(0, entries - 1),
        53 => {
            s.index_count -= 1;
            s.index[entries - 1] = Entry::default();
        }
        54 => s.index[i].device.kind ^= 1,
        55 if entries < PAIRS => {
            // The device twice, with another mask: the first answers.
            s.index[entries] = Entry { mask: !s.index[i].mask, ..s.index[i] };
            s.index_count += 1;
        }
        56 => s.index_count = random.pick(&[65, 255]),
        57 if entries < PAIRS => s.index[63].mask = 1,
        58 => s.edition_count = 0,
        59 => s.edition_count = random.pick(&[33, 255]),
        60 => s.editions[0].from = 1,
        61 if editions > 1 => s.editions.swap(0, editions - 1),
        62 if editions > 2 => s.editions[e].from = s.editions[e - 1].from,
        63 if editions > 2 => s.editions[e].from = s.editions[e - 1].from.saturating_sub(1),
        64 => s.editions[random.below(editions)].length = random.pick(&[33, 255]),
        65 if s.editions[editions - 1].length < 32 => s.editions[editions - 1].prefix[31] = 1,
        66 if editions < 32 => s.editions[31].from = 1,
        67 if s.prefix_length > 0 => s.prefix[0] ^= 1,
        68 => {
            // A0 with the first edition, or with the last.
            let edition = s.editions[random.pick(&[0, editions - 1])];
            s.hold_prefix(&edition);
        }
        69 if editions < 32 && s.editions[editions - 1].from < s.position && s.prefix() != [0] => {
            // A later edition at the position, A0 as before.
            s.editions[editions] = Edition::of(s.position, &[0]);
            s.edition_count += 1;
        }
        41 => {
            let handles: Vec<u8> = s.monitors().iter().map(|m| m.handle).collect();
            s.pairs[p].handle = (0..16).find(|h| !handles.contains(h))?;
        }
        _ => return None,
    }
    // A break of the pairs alone: the index goes with them.
    if way < 51 && s.pairs != sound.pairs {
        s.index_afresh();
    }
    // Another octet may make another well-formed condition.
    let changed = &s.monitors[m];
    let harmless = [16, 17].contains(&way) && form(changed.kind, changed.condition()) == Form::WellFormed;
    (s != *sound && !harmless).then_some(s)
}
