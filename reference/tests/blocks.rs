//! The block of a state: record and block give each other, and neither is sound without the other.

use reference::block::{self, SIZE};
use reference::engine::Engine;
use reference::fault::Fault;
use reference::generate::states;
use reference::history::History;
use reference::limits::ANSWER;
use reference::random::Random;
use reference::state::State;
use reference::timers::{sound, Timers};

/// A sound state of a seed.
fn drawn(seed: u64, index: u64) -> (Random, State) {
    let mut random = Random::of(seed, index);
    let devices = states::devices(&mut random);
    let state = states::sound(&mut random, &devices);
    (random, state)
}

/// Is the record of a block sound? Both engines must say the same, and the record must give the block again.
fn sound_block(octets: &[u8; SIZE]) -> bool {
    let state = block::state(octets);
    assert_eq!(block::of(&state).as_ref(), Some(octets));
    let says = sound(&state, Fault::None);
    let engines: [Box<dyn Engine>; 2] = [Box::new(Timers::default()), Box::new(History::default())];
    for mut engine in engines {
        engine.adopt(&state);
        let refusal = engine.submit(&[], &mut [0; ANSWER]).unwrap_err().number();
        assert_eq!(refusal, if says { 4 } else { 7 });
    }
    says
}

/// Document 01's session in full, its block written out by hand from the layout.
#[test]
fn the_block_of_the_session_in_full() {
    let image = b"A002000000001EFC024D53\nA400000000024D53\nA100C4B00300040700060504030201\n\
        A30000060504030201000000000000000000000000000000C40000\nAF0101\n";
    let mut engine = Timers::default();
    engine.restore(image).unwrap();
    let mut expected = [0; SIZE];
    expected[..10].copy_from_slice(&[2, 0, 0, 0, 0, 0x1E, 0xFC, 2, 0x4D, 0x53]);
    expected[40..54].copy_from_slice(&[0, 0xC4, 0xB0, 3, 0, 4, 7, 0, 6, 5, 4, 3, 2, 1]);
    expected[1576..1584].copy_from_slice(&[0, 0, 6, 5, 4, 3, 2, 1]);
    expected[1576 + 23] = 0xC4;
    expected[5224] = 1;
    expected[5225..5234].copy_from_slice(&[0, 6, 5, 4, 3, 2, 1, 1, 0]);
    expected[5801] = 1;
    expected[5802..5809].copy_from_slice(&[0, 0, 0, 0, 2, 0x4D, 0x53]);
    expected[6986] = 1;
    assert_eq!(block::of(&engine.state()), Some(expected));
    assert_eq!(block::state(&expected), engine.state());
}

/// Every field at its place: numbers of several octets low octet first, the last octet of each row.
#[test]
fn fields_and_places() {
    let (_, state) = (0..).map(|index| drawn(21, index)).find(|(_, s)| s.pair_count > 2).unwrap();
    let mut s = state.clone();
    s.position = 0x0403_0201;
    s.pairs[1].quiet = 0x0201;
    s.pairs[1].packets = 0x0403_0201;
    s.pairs[1].sum = -2;
    s.pairs[63].data[30] = 9;
    s.prefix[31] = 8;
    s.editions[31].from = 0x0403_0201;
    s.editions[31].length = 6;
    s.editions[31].prefix[31] = 7;
    let octets = block::of(&s).unwrap();
    assert_eq!(octets[..4], [1, 2, 3, 4]);
    assert_eq!(octets[39], 8);
    let row = 1576 + 57;
    assert_eq!(octets[row + 8..row + 10], [1, 2]);
    assert_eq!(octets[row + 11..row + 15], [1, 2, 3, 4]);
    assert_eq!(octets[row + 15..row + 23], [0xFE, 0xFF, 0xFF, 0xFF, 0xFF, 0xFF, 0xFF, 0xFF]);
    assert_eq!(octets[row + 23] as i8, s.pairs[1].rssi);
    assert_eq!(octets[5223], 9);
    let row = 5802 + 37 * 31;
    assert_eq!(octets[row..row + 5], [1, 2, 3, 4, 6]);
    assert_eq!(octets[6985..], [7, s.edition_count]);
    for m in state.monitors() {
        let row = 40 + 96 * m.handle as usize;
        assert_eq!(
            octets[row..row + 7],
            [m.handle, m.high as u8, m.low as u8, m.interval, m.sampling, m.kind, m.length]
        );
        assert_eq!(octets[row + 7..row + 71], m.octets);
        assert_eq!(octets[row + 71..row + 73], [m.options, m.reports]);
        assert_eq!(octets[row + 73..row + 79], m.peer.address);
        assert_eq!(octets[row + 79], m.peer.kind);
        assert_eq!(octets[row + 80..row + 96], m.irk);
    }
}

#[test]
fn sound_states_have_blocks() {
    let mut random = Random::new(22);
    let mut all: Vec<State> = (0..3000).map(|index| drawn(22, index).1).collect();
    all.push(states::largest(&mut random));
    all.push(State::blank());
    for state in all {
        let octets = block::of(&state).expect("a sound state has a block");
        assert_eq!(block::state(&octets), state);
        assert!(sound_block(&octets));
    }
}

/// States with a broken clause of "Sound": where they have a block it is not sound either. Most ways do.
#[test]
fn broken_states_stay_broken() {
    let mut met = [0; states::WAYS];
    for index in 0..6000 {
        let (mut random, state) = drawn(23, index);
        let way = index as usize % states::WAYS;
        let Some(broken) = states::broken(&mut random, &state, way) else { continue };
        if let Some(octets) = block::of(&broken) {
            met[way] += 1;
            assert_eq!(block::state(&octets), broken);
            assert!(!sound_block(&octets), "way {way}: {broken:?}");
        }
    }
    // Monitors out of order, twice, with a handle above 15, or in unused places: no block holds them.
    let none: Vec<usize> = (0..states::WAYS).filter(|way| met[*way] == 0).collect();
    assert_eq!(none, [6, 8, 9, 10, 23]);
}

/// The octets of a sound state's block that are not in use, from its own lengths.
fn unused(state: &State) -> Vec<usize> {
    let mut places: Vec<usize> = (8 + state.prefix_length as usize..40).collect();
    for handle in 0..16 {
        let row = 40 + 96 * handle;
        let monitor = state.monitor(handle as u8);
        let used = monitor.map_or(0, |m| 7 + m.length as usize);
        places.extend(row + used..row + 71);
        // With options that are not 0 it is another monitor, of version 2.
        let first = if monitor.is_some() { 72 } else { 71 };
        let end = if monitor.is_some_and(|m| m.options != 0) { first } else { 96 };
        places.extend(row + first..row + end);
    }
    for place in 0..64 {
        let row = 1576 + 57 * place;
        let used = state.pairs().get(place).map_or(0, |p| 26 + p.n as usize);
        places.extend(row + used..row + 57);
    }
    places.extend(5225 + 9 * state.index_count as usize..5801);
    for place in 0..32 {
        let row = 5802 + 37 * place;
        let used = state.editions().get(place).map_or(0, |e| 5 + e.length as usize);
        places.extend(row + used..row + 37);
    }
    places
}

/// Any unused octet that is not 0 makes the block unsound.
#[test]
fn unused_octets_are_asked_for() {
    for index in 0..12 {
        let (mut random, state) = drawn(24, index);
        let octets = block::of(&state).unwrap();
        for place in unused(&state) {
            let mut changed = octets;
            changed[place] = random.pick(&[1, 60, 255]);
            assert!(!sound_block(&changed), "octet {place} of {state:?}");
        }
    }
}

/// Two rows of the monitors changed about, and a row moved to a free place: unsound, and held as it stands.
#[test]
fn rows_at_other_places() {
    let mut moved = 0;
    for index in 0..300 {
        let (mut random, state) = drawn(25, index);
        let octets = block::of(&state).unwrap();
        let (one, other) = (40 + 96 * random.below(16), 40 + 96 * random.below(16));
        let mut changed = octets;
        changed[one..one + 96].copy_from_slice(&octets[other..other + 96]);
        changed[other..other + 96].copy_from_slice(&octets[one..one + 96]);
        assert_eq!(sound_block(&changed), changed == octets);
        moved += (changed != octets) as u32;
    }
    assert!(moved > 100);
}

/// Octets at random, and blocks with some octets changed.
#[test]
fn any_octets_are_some_state() {
    let mut sounds = [0; 2];
    for index in 0..3000 {
        let (mut random, state) = drawn(26, index);
        let mut octets = block::of(&state).unwrap();
        for _ in 0..random.pick(&[1, 1, 2, 40]) {
            octets[random.below(SIZE)] = random.octet();
        }
        sounds[sound_block(&octets) as usize] += 1;
        octets = random.octets(SIZE).try_into().unwrap();
        assert!(!sound_block(&octets));
    }
    assert!(sounds.iter().all(|n| *n > 50), "{sounds:?}");
}
