//! Document 02, T-10: rows joined. Rows by hand, the laws on random rows, and the law of the cut.

use reference::cases::given;
use reference::engine::journal;
use reference::generate;
use reference::history::History;
use reference::month::{join, replay, Counting, Row, Wrong, WrongJoin, WRONG_JOINS};
use reference::random::Random;
use reference::refusal::Refusal;
use reference::script::{self, Call};
use reference::timers::Timers;

fn joined(one: &Row, other: &Row) -> Option<Row> {
    let (row, refusal) = join(one, other, WrongJoin::None);
    match refusal {
        None => Some(row),
        Some(refusal) => {
            assert_eq!((refusal, row), (Refusal::Total, Row::default()), "12 and the empty row");
            None
        }
    }
}

#[test]
fn by_hand() {
    let row = |packets, reports, ticks, sum| Row { packets, reports, ticks, sum };
    assert_eq!(Refusal::Total.number(), 12);
    assert_eq!(joined(&row(1, 2, 3, -4), &row(10, 20, 30, 1)), Some(row(11, 22, 33, -3)));
    assert_eq!(joined(&row(u64::MAX, 0, 0, 0), &Row::default()), Some(row(u64::MAX, 0, 0, 0)));
    assert_eq!(joined(&row(u64::MAX - 1, 0, 0, 0), &row(1, 0, 0, 0)), Some(row(u64::MAX, 0, 0, 0)));
    for (one, other) in [
        (row(u64::MAX, 0, 0, 5), row(1, 0, 0, 5)),
        (row(0, u64::MAX, 0, 5), row(0, 1, 0, 5)),
        (row(0, 0, u64::MAX, 5), row(0, 0, 1, 5)),
        (row(7, 0, 0, i64::MAX), row(7, 0, 0, 1)),
        (row(7, 0, 0, i64::MIN), row(7, 0, 0, -1)),
    ] {
        assert_eq!(joined(&one, &other), None);
        assert_eq!(joined(&other, &one), None);
        for (wrong, words) in WRONG_JOINS {
            assert_ne!(join(&one, &other, *wrong), join(&one, &other, WrongJoin::None), "{words}");
        }
    }
    assert_eq!(joined(&row(0, 0, 0, i64::MAX), &row(0, 0, 0, i64::MIN)), Some(row(0, 0, 0, -1)));
    // Along the way: the first order passes 64 bits where the second does not.
    let (a, b, c) = (row(0, 0, 0, i64::MAX), row(0, 0, 0, 1), row(0, 0, 0, -1));
    assert_eq!(joined(&a, &b), None);
    assert_eq!(joined(&a, &joined(&b, &c).unwrap()), Some(a));
}

#[test]
fn laws() {
    let mut random = Random::new(10);
    let mut row = || {
        let mut total = || random.pick(&[0, 1, 5, u64::MAX / 3, u64::MAX / 2, u64::MAX - 1, u64::MAX]);
        let (packets, reports, ticks) = (total(), total(), total());
        let ends = [0, 1, -1, i64::MAX / 2, i64::MIN / 2, i64::MAX, i64::MIN];
        Row { packets, reports, ticks, sum: random.pick(&ends) }
    };
    let (mut fitting, mut passing) = (0, 0);
    for _ in 0..20_000 {
        let (a, b, c) = (row(), row(), row());
        assert_eq!(joined(&a, &b), joined(&b, &a));
        assert_eq!(joined(&a, &Row::default()), Some(a));
        let left = joined(&a, &b).and_then(|ab| joined(&ab, &c));
        let right = joined(&b, &c).and_then(|bc| joined(&a, &bc));
        match (left, right) {
            (Some(left), Some(right)) => {
                assert_eq!(left, right);
                fitting += 1;
            }
            _ => passing += 1,
        }
    }
    assert!(fitting > 500 && passing > 500, "{fitting} {passing}");
}

/// The rows of a whole journal are the join of those of its two parts, cut after any frame.
fn cut<E: Counting + Default>(index: u64) -> usize {
    let calls = generate::session(61, index, 40);
    let Call::Start { opcode, prefix } = &calls[0] else { panic!("a session starts") };
    let mut follower = E::default();
    follower.start(*opcode, prefix).unwrap();
    let begun = follower.clone();
    let mut frames = Vec::new();
    let mut states = vec![follower.state()];
    for call in &calls[1..] {
        let executed = script::call(&mut follower, call).refusal == 0;
        if let Some(octets) = given(call).filter(|_| executed) {
            frames.push(octets);
            states.push(follower.state());
        }
    }
    let rows = |engine: &mut E, text: &[u8]| {
        let mut rows = [Row::default(); 16];
        assert_eq!(replay(engine, text, &mut rows, Wrong::None), None);
        rows
    };
    let whole = rows(&mut begun.clone(), &journal(&frames, 1));
    for k in 0..=frames.len() {
        let mut engine = begun.clone();
        let first = rows(&mut engine, &journal(&frames[..k], 1));
        // The second part is started from the state at the cut.
        engine.adopt(&states[k]);
        let second = rows(&mut engine, &journal(&frames, k + 1));
        for handle in 0..16 {
            assert_eq!(joined(&first[handle], &second[handle]), Some(whole[handle]), "cut after {k}");
        }
    }
    frames.len()
}

#[test]
fn the_law_of_the_cut() {
    let frames: usize =
        (0..150).map(cut::<Timers>).sum::<usize>() + (0..60).map(cut::<History>).sum::<usize>();
    assert!(frames > 1000);
}
