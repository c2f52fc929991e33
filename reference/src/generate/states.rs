//! Random sound states, and states that break one clause of "Sound".

pub use super::broken::{broken, WAYS};

use super::{conditions, editions, second};
use crate::limits::{Seconds, CONDITION, DATA, MONITORS, PAIRS, PREFIX};
use crate::options;
use crate::private::{self, Key};
use crate::random::Random;
use crate::state::{Device, Monitor, Pair, State};

pub fn device(random: &mut Random) -> Device {
    Device { kind: random.below(2) as u8, address: random.octets(6).try_into().unwrap() }
}

/// A device with a private address of this key, or one that nearly is: a bit of the hash, of the upper half or of the
/// key changed, other top bits with their own hash, public.
pub fn private_device(random: &mut Random, key: &Key) -> Device {
    let mut prand: [u8; 3] = random.octets(3).try_into().unwrap();
    prand[2] = prand[2] & 0x3F | 0x40;
    let bit = 1 << random.below(8);
    let mut other = *key;
    match random.below(14) {
        0 => other[random.below(16)] ^= bit,
        1 => other.reverse(),
        2 => prand[2] ^= random.pick(&[0x40, 0x80, 0xC0]),
        _ => (),
    }
    let mut device = Device { kind: 1, address: private::address(&other, prand) };
    match random.below(14) {
        0 => device.kind = 0,
        1 => device.address[random.below(6)] ^= bit,
        2 => device.address[5] ^= random.pick(&[0x40, 0x80, 0xC0]),
        _ => (),
    }
    device
}

/// A few devices, two of them alike but for the address type, some with private addresses.
pub fn devices(random: &mut Random) -> Vec<Device> {
    let mut list: Vec<Device> = (0..random.pick(&[1, 2, 3, 5])).map(|_| device(random)).collect();
    for _ in 0..random.pick(&[0, 1, 2]) {
        let key = conditions::key(random);
        list.push(private_device(random, &key));
    }
    list.push(Device { kind: 1 - list[0].kind, ..list[0] });
    list
}

fn monitor(random: &mut Random, handle: u8, known: &[Device]) -> Monitor {
    let low = random.between(-127, 20) as i8;
    let high = match random.percent(20) {
        true => low,
        false => random.between(low as i64, 20) as i8,
    };
    let (kind, condition) = match random.below(8) {
        0 => (1, conditions::longest(random)),
        1..=3 => conditions::flags(),
        _ => conditions::well_formed(random, known),
    };
    let interval = random.pick(&[1, 1, 2, 3, 59, 60]);
    let sampling = random.pick(&[0, 1, 2, 3, 10, 0xFE, 0xFF]);
    let mut held = Monitor { handle, high, low, interval, sampling, ..Monitor::NONE };
    let (kind, condition) = match random.percent(40) {
        true => second::added(random, known, &mut held),
        false => (kind, condition),
    };
    held.kind = kind;
    held.length = condition.len() as u8;
    held.octets[..condition.len()].copy_from_slice(&condition);
    held
}

fn pair(random: &mut Random, state: &State, known: &[Device]) -> Pair {
    let monitor = random.pick(state.monitors());
    let device = match (random.percent(60), <&Key>::try_from(monitor.condition())) {
        (true, _) => random.pick(known),
        (false, Ok(key)) if monitor.kind == 3 => private_device(random, key),
        (false, _) => device(random),
    };
    let mut pair = Pair { handle: monitor.handle, device, ..Pair::NONE };
    pair.rssi = match random.below(4) {
        0 => random.pick(&[-127, 20]),
        1 => random.between(-127, 20) as i8,
        _ => random.pick(&[-80, -61, -60, -59]),
    };
    let limit = Seconds(monitor.interval).ticks().0;
    pair.quiet = random.pick(&[0, limit - 1, limit - 2, limit / 2]);
    if options::filters_duplicates(&monitor) {
        pair.event_type = random.pick(&[0, 1, 2, 3, Pair::NO_PACKET, Pair::NO_PACKET]);
        if pair.event_type != Pair::NO_PACKET {
            let data = conditions::data(random, state.monitors());
            pair.n = data.len() as u8;
            pair.data[..data.len()].copy_from_slice(&data);
        }
    }
    let Some(period) = monitor.period() else { return pair };
    pair.window_ticks = random.pick(&[0, period - 1, period / 2]);
    if random.percent(30) {
        return pair;
    }
    let most = state.position;
    pair.packets = random.pick(&[0, 1, 2, 3, 7, 1000, most, most.saturating_sub(1)]).min(most);
    if pair.packets == 0 {
        return pair;
    }
    let packets = pair.packets as i64;
    pair.sum = match random.below(4) {
        0 => -127 * packets,
        1 => 20 * packets,
        2 => -packets + random.between(-1, 1).clamp(-126 * packets, 0),
        _ => random.between(-127 * packets, 20 * packets),
    };
    pair.event_type = random.below(4) as u8;
    let data = conditions::data(random, state.monitors());
    pair.n = data.len() as u8;
    pair.data[..data.len()].copy_from_slice(&data);
    pair
}

/// A sound state, most often one that no session reaches.
pub fn sound(random: &mut Random, known: &[Device]) -> State {
    let length = random.pick(&[0, 1, 2, 31, 32]);
    let prefix = random.octets(length);
    let mut state = State::fresh(random.pick(&[0xFC00, 0xFC1E, 0xFFFF]), &prefix);
    state.position = match random.below(5) {
        0 => random.word(),
        1 => u32::MAX - random.pick(&[0, 1, 2, 5, 30]),
        2 => random.below(4) as u32,
        _ => random.below(3000) as u32,
    };
    state.filter = random.below(2) as u8;
    editions::hold(random, &mut state);
    let share = random.pick(&[10, 30, 60, 100]);
    for handle in 0..MONITORS as u8 {
        if random.percent(share) {
            let held = monitor(random, handle, known);
            state.monitors[state.monitor_count as usize] = held;
            state.monitor_count += 1;
        }
    }
    if state.monitor_count == 0 {
        return state;
    }
    for _ in 0..random.pick(&[0, 1, 3, 10, 64, 80, 160]) {
        let new = pair(random, &state, known);
        let known_pair = state.pairs().iter().any(|p| (p.handle, p.device) == (new.handle, new.device));
        if !known_pair && (state.pair_count as usize) < PAIRS {
            state.pairs[state.pair_count as usize] = new;
            state.pair_count += 1;
        }
    }
    state.index_afresh();
    state
}

/// The state with the largest image, one tick before the longest answer.
pub fn largest(random: &mut Random) -> State {
    let prefix = random.octets(PREFIX);
    let mut state = State::fresh(0xFC1E, &prefix);
    state.filter = 1;
    state.position = 1000;
    editions::hold_most(random, &mut state);
    for handle in 0..MONITORS {
        let octets = conditions::longest(random).try_into().unwrap();
        state.monitors[handle] = Monitor {
            handle: handle as u8,
            high: -60,
            low: -80,
            interval: 60,
            sampling: 5,
            kind: 1,
            length: CONDITION as u8,
            octets,
            options: 0x21,
            reports: 0x02,
            peer: Device { kind: 1, address: [handle as u8; 6] },
            irk: conditions::key(random),
        };
    }
    state.monitor_count = MONITORS as u8;
    for place in 0..PAIRS {
        state.pairs[place] = Pair {
            handle: (place % MONITORS) as u8,
            device: Device { kind: 0, address: [place as u8, 1, 2, 3, 4, 5] },
            quiet: 0,
            window_ticks: 4,
            packets: 2,
            sum: -121,
            rssi: -60,
            event_type: 3,
            n: DATA as u8,
            data: std::array::from_fn(|_| random.octet()),
        };
    }
    state.pair_count = PAIRS as u8;
    state.index_afresh();
    state
}
