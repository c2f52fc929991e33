//! Frames counted in lent rows (T-09), by the library and by the independent implementation: after every frame the same refusal, octets
//! written, rest of the output, state and rows. Tables of all sizes, totals at the ends of 64 bits.

use crate::compare::{given, one, script_of};
use crate::engine::Library;
use reference::block;
use reference::engine::Engine;
use reference::fault::Fault;
use reference::lines;
use reference::month::{self, Row, Wrong};
use reference::random::Random;
use reference::script::{self, Call};
use reference::timers::Timers;

/// What was compared.
#[derive(Clone, Copy, Default)]
pub struct Counts {
    pub scripts: u64,
    pub lines: u64,
    pub counted: u64,
    pub passes: u64,
}

/// What a lent output holds before the call.
const BEFORE: u8 = 0xA5;

/// A total near the end of 64 bits, or any.
fn row(random: &mut Random) -> Row {
    let near = |random: &mut Random| random.pick(&[0, 1, 2, u64::MAX, u64::MAX - 1, u64::MAX - 2, 1 << 63]);
    let by = random.between(0, 300);
    let sum = random.pick(&[0, i64::MAX - by, i64::MIN + by, i64::MAX, i64::MIN]);
    let row = Row { packets: near(random), reports: near(random), ticks: near(random), sum };
    match random.below(5) {
        0 => Row { packets: row.packets, ..Row::default() },
        1 => Row { reports: row.reports, ..Row::default() },
        2 => Row { ticks: row.ticks, ..Row::default() },
        3 => Row { sum: row.sum, ..Row::default() },
        _ => row,
    }
}

/// A table: mostly sixteen rows, most of them empty.
fn table(random: &mut Random) -> Vec<Row> {
    let rows = if random.percent(90) { 16 } else { random.pick(&[0, 1, 15, 17, 40]) };
    let edge = random.percent(50);
    let one = |_| if edge && random.percent(15) { row(random) } else { Row::default() };
    (0..rows).map(one).collect()
}

/// The place of the first call at which the library and the other engine, of this wrong build, differ.
pub fn first_difference(seed: u64, index: u64, wrong: Wrong, counts: &mut Counts) -> Option<usize> {
    let mut random = Random::of(seed ^ 0x526F77, index);
    let (mut library, mut other) = (Library::default(), Timers::with_fault(Fault::None));
    let mut rows = vec![Row::default(); 16];
    counts.scripts += 1;
    for (place, call) in script_of(seed, index).iter().enumerate() {
        let (line, lent) = match call {
            Call::Octets { octets, lent } => (lines::write(octets), *lent),
            Call::Line { text, lent } => (text.clone(), *lent),
            _ => {
                if one(script::call(&mut other, call)) != one(given(&mut library, call)) {
                    return Some(place);
                }
                continue;
            }
        };
        if random.percent(10) {
            rows = table(&mut random);
        }
        let (mut out, mut expected_out, mut expected_rows) =
            (vec![BEFORE; lent], vec![BEFORE; lent], rows.clone());
        let octets = lines::read(&line, Fault::None);
        let expected =
            month::give(&mut other, octets.as_deref(), &mut expected_out, &mut expected_rows, wrong);
        let told = library.state.count_line(&line, &mut out, &mut rows);
        counts.lines += 1;
        counts.counted +=
            (rows.iter().any(|row| row.packets + row.reports + row.ticks > 0) && told.is_ok()) as u64;
        counts.passes += (told == Err(12)) as u64;
        let same_state = block::of(&other.state()) == Some(library.state.block);
        if expected.map_err(|r| r.number()) != told
            || out != expected_out
            || rows != expected_rows
            || !same_state
        {
            return Some(place);
        }
    }
    None
}
