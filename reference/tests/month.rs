//! Document 02, T-09: the month's rows. Rows by hand for each reading, refusals, both engines, wrong builds.

mod common;

use common::*;
use reference::generate::{self, frames};
use reference::history::History;
use reference::limits::ANSWER;
use reference::month::{give, replay, text, Counting, Row, Wrong, WRONG};
use reference::script::Call;
use reference::state::Device;
use reference::timers::Timers;

const FLAGS: [u8; 5] = [1, 3, 0x01, 0, 0x06];
const DATA: [u8; 3] = [2, 1, 6];

/// An engine that counts, with frames numbered for it.
struct Counted<E> {
    engine: E,
    rows: Vec<Row>,
    next: u32,
}

impl<E: Counting + Default> Counted<E> {
    fn new() -> Self {
        let mut engine = E::default();
        engine.start(OPCODE, &PREFIX).unwrap();
        Counted { engine, rows: vec![Row::default(); 16], next: 1 }
    }

    fn give(&mut self, kind: u8, payload: &[u8]) -> Result<usize, u8> {
        let octets = frames::frame(kind, self.next, payload);
        let given = give(&mut self.engine, Some(&octets), &mut [0; ANSWER], &mut self.rows, Wrong::None);
        self.next += given.is_ok() as u32;
        given.map_err(|refusal| refusal.number())
    }

    fn command(&mut self, parameters: &[u8]) {
        self.give(1, &frames::command(OPCODE, parameters)).unwrap();
    }

    fn add(&mut self, sampling: u8) {
        self.command(&frames::monitor(-60, -80, 1, sampling, 1, &FLAGS));
    }

    fn packet(&mut self, device: &Device, data: &[u8], rssi: i8) {
        self.give(2, &frames::packet(0, device, data, rssi)).unwrap();
    }

    fn ticks(&mut self, count: usize) {
        (0..count).for_each(|_| assert!(self.give(3, &[]).is_ok()));
    }

    fn row(&self, handle: usize) -> (u64, u64, u64, i64) {
        let row = self.rows[handle];
        (row.packets, row.reports, row.ticks, row.sum)
    }
}

fn each_reading<E: Counting + Default>() {
    let mut c = Counted::<E>::new();
    c.add(0);
    c.add(2);
    // Matching packets count, under watch or not; sent only because the filter is off: no report caused.
    c.packet(&DEVICE, &DATA, -70);
    assert_eq!([c.row(0), c.row(1)], [(1, 0, 0, -70); 2]);
    c.packet(&DEVICE, &[], -10);
    assert_eq!(c.row(0), (1, 0, 0, -70), "no match");
    // A start is a reason for both, filter off; under watch it is one for sampling 0.
    c.packet(&DEVICE, &DATA, -60);
    assert_eq!([c.row(0), c.row(1)], [(2, 1, 0, -130); 2]);
    c.packet(&DEVICE, &DATA, -61);
    assert_eq!([c.row(0), c.row(1)], [(3, 2, 0, -191), (3, 1, 0, -191)]);
    // A window that closes while the filter is off has no report; one that closes while it is on has.
    c.ticks(2);
    assert_eq!([c.row(0), c.row(1)], [(3, 2, 2, -191), (3, 1, 2, -191)]);
    c.command(&[0x05, 1]);
    c.packet(&DEVICE, &DATA, -62);
    c.ticks(2);
    assert_eq!([c.row(0), c.row(1)], [(4, 3, 4, -253), (4, 2, 4, -253)]);
    // Kind 04 counts two.
    c.give(4, &frames::scanned(0, &DEVICE, &DATA, &[], -62)).unwrap();
    assert_eq!([c.row(0), c.row(1)], [(5, 5, 4, -315), (5, 2, 4, -315)]);
    // A tick that ends the last watch does not count: 9 more, not 10.
    c.command(&[0x05, 0]);
    c.ticks(10);
    assert_eq!([c.row(0), c.row(1)], [(5, 5, 13, -315), (5, 2, 13, -315)]);
    c.ticks(3);
    assert_eq!(c.row(0).2, 13);
    // Two devices are one tick; a row covers a handle across cancels.
    c.packet(&DEVICE, &DATA, -60);
    c.packet(&Device { kind: 1, ..DEVICE }, &DATA, -60);
    c.ticks(1);
    assert_eq!([c.row(0), c.row(1)], [(7, 7, 14, -435), (7, 4, 14, -435)]);
    c.command(&[0x04, 0]);
    c.ticks(1);
    assert_eq!([c.row(0).2, c.row(1).2], [14, 15]);
    c.add(0xFF);
    c.packet(&DEVICE, &DATA, 20);
    assert_eq!(c.row(0), (8, 8, 14, -415));
    assert!(c.rows[2..].iter().all(|row| *row == Row::default()));
    // Seen lines count nothing.
    let rows = c.rows.clone();
    let seen = reference::lines::write(&frames::frame(2, 3, &frames::packet(0, &DEVICE, &DATA, 0)));
    assert_eq!(replay(&mut c.engine, &seen, &mut c.rows, Wrong::None), None);
    assert_eq!(c.rows, rows);
    assert!(text(&rows).starts_with("0 8 8 14 -415\n1 8 "));
}

#[test]
fn readings() {
    each_reading::<Timers>();
    each_reading::<History>();
}

fn both_edges<E: Counting + Default>() {
    // 3 for a table not of sixteen rows, before 4; 7 before it.
    let mut c = Counted::<E>::new();
    for length in [0, 15, 17] {
        c.rows = vec![Row::default(); length];
        assert_eq!(c.give(3, &[]), Err(3));
        assert_eq!(c.give(9, &[]), Err(3));
    }
    let mut unsound = c.engine.state();
    unsound.filter = 2;
    c.engine.adopt(&unsound);
    assert_eq!(c.give(3, &[]), Err(7));
    // 12 at each total: one below the end fits, the end does not.
    let last = Row { packets: u64::MAX, reports: u64::MAX, ticks: u64::MAX, sum: 0 };
    let edges = [
        (Row { packets: u64::MAX - 1, ..Row::default() }, -60, true),
        (Row { packets: u64::MAX, ..last }, -60, false),
        (Row { reports: u64::MAX - 1, ..Row::default() }, -60, true),
        (Row { reports: u64::MAX, ..Row::default() }, -60, false),
        (Row { sum: i64::MIN + 60, ..Row::default() }, -60, true),
        (Row { sum: i64::MIN + 59, ..Row::default() }, -60, false),
        (Row { sum: i64::MAX - 20, ..Row::default() }, 20, true),
        (Row { sum: i64::MAX - 19, ..Row::default() }, 20, false),
        (Row { ticks: u64::MAX, ..Row::default() }, 20, true),
    ];
    for (row, rssi, fits) in edges {
        let mut c = Counted::<E>::new();
        c.add(0);
        c.add(0);
        c.rows[1] = row;
        let (rows, state) = (c.rows.clone(), c.engine.state());
        let given = c.give(2, &frames::packet(0, &DEVICE, &DATA, rssi));
        match fits {
            true => assert!(given.is_ok() && c.rows[0].packets == 1),
            false => {
                assert_eq!(given, Err(12));
                assert_eq!((&c.rows, c.engine.state()), (&rows, state), "those that would have fitted too");
            }
        }
    }
    let mut c = Counted::<E>::new();
    c.add(0);
    c.packet(&DEVICE, &DATA, -60);
    c.rows[0].ticks = u64::MAX - 1;
    c.ticks(1);
    assert_eq!(c.give(3, &[]), Err(12));
    assert_eq!(c.give(3, &[0]), Err(5), "12 comes last");
    c.rows[0].ticks = 7;
    c.ticks(8);
    assert_eq!(c.rows[0].ticks, 15);
    c.rows[0].ticks = u64::MAX;
    assert!(c.give(3, &[]).is_ok(), "the tick that ends the watch adds nothing");
}

#[test]
fn refusals() {
    both_edges::<Timers>();
    both_edges::<History>();
}

/// The rows of a session's frames, by an engine, from rows that may be near their ends.
fn counted<E: Counting>(mut engine: E, calls: &[Call], begin: Row, wrong: Wrong) -> (Vec<Row>, Vec<u8>) {
    let mut rows = vec![begin; 16];
    let mut refusals = Vec::new();
    for call in calls {
        let given = match call {
            Call::Start { opcode, prefix } => engine.start(*opcode, prefix).map(|()| 0),
            Call::Octets { octets, .. } => {
                give(&mut engine, Some(octets), &mut [0; ANSWER], &mut rows, wrong)
            }
            Call::Line { text, .. } => {
                let octets = reference::lines::read(text, reference::fault::Fault::None);
                give(&mut engine, octets.as_deref(), &mut [0; ANSWER], &mut rows, wrong)
            }
            _ => Ok(0),
        };
        refusals.push(given.err().map_or(0, |refusal| refusal.number()));
    }
    (rows, refusals)
}

#[test]
fn sessions_by_both_engines_and_wrong_builds() {
    let mut noticed = vec![0; WRONG.len()];
    let mut twelve = 0;
    for index in 0..1000 {
        let calls = generate::session(51, index, 80);
        let begin = match index % 4 {
            0 => Row { packets: u64::MAX - 3, sum: i64::MIN + 300, ..Row::default() },
            _ => Row::default(),
        };
        let right = counted(Timers::default(), &calls, begin, Wrong::None);
        assert_eq!(right, counted(History::default(), &calls, begin, Wrong::None), "session {index}");
        twelve += right.1.iter().filter(|refusal| **refusal == 12).count();
        for (place, (wrong, _)) in WRONG.iter().enumerate() {
            noticed[place] += (counted(Timers::default(), &calls, begin, *wrong) != right) as u32;
        }
    }
    assert!(twelve > 40, "{twelve} sessions are stopped by 12");
    assert!(noticed.iter().all(|n| *n > 10), "{noticed:?}");
}
