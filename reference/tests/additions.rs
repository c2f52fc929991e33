//! Document 02, T-12: additions given to the program and given again at a failover, and what wrong builds do of them.

mod common;

use common::*;
use reference::engine::Engine;
use reference::fault::Fault;
use reference::generate::{self, frames};
use reference::history::History;
use reference::program;
use reference::script::{self, Call};
use reference::timers::Timers;

/// A 00 for each number.
fn asking(first: u32, count: u32) -> String {
    let frame = |n| line(&frames::frame(1, n, &frames::command(OPCODE, &[0x00])));
    (first..first + count).map(|n| String::from_utf8(frame(n)).unwrap()).collect()
}

fn written(image: &str, journal: &str, additions: &str) -> String {
    let engines: [Box<dyn Engine>; 2] = [Box::new(Timers::default()), Box::new(History::default())];
    let [first, second] = engines.map(|mut engine| {
        let texts = [image, journal, additions].map(str::as_bytes);
        program::output(engine.as_mut(), texts[0], texts[1], texts[2])
    });
    assert_eq!(first, second);
    String::from_utf8(first).unwrap()
}

/// What the program writes: each replayed frame uses the edition that held at its number.
#[test]
fn the_program() {
    let image = format!("A000000000001EFC024D53\n{FIRST}AF0000\n");
    let told = |prefix: &str| {
        let length = prefix.len() / 2;
        format!("0E{:02X}011EFC00000C04000000000000{length:02X}{prefix}\n", 14 + length)
    };
    let additions = "A40200000001AA\nA40400000000\n";
    let lines = format!("{FIRST}{additions}");
    let answers = [told("4D53"), told("AA"), told("AA"), told("")].concat();
    assert_eq!(
        written(&image, &asking(1, 4), additions),
        format!("{answers}A004000000001EFC00\n{lines}AF0000\n")
    );
    assert_eq!(written(&image, "", additions), format!("A000000000001EFC024D53\n{lines}AF0000\n"));
    assert_eq!(
        written(&image, &asking(1, 1), ""),
        format!("{}{}", told("4D53"), image.replace("A000", "A001"))
    );
    // A refused one stops with its number, and no journal is read.
    let stopped = |kept: &str, number: u8| format!("A000000000001EFC024D53\n{FIRST}{kept}AF0000\n{number}\n");
    let journal = asking(1, 4);
    assert_eq!(written(&image, &journal, "A40000000001AA\n"), stopped("", 14));
    assert_eq!(
        written(&image, &journal, "A40200000001AA\nA40200000001AA\n"),
        stopped("A40200000001AA\n", 14)
    );
    let long = format!("A40100000021{}\n", "11".repeat(33));
    assert_eq!(written(&image, &journal, &long), stopped("", 15));
    let many: String = (1..=32).map(|n| format!("A4{n:02X}00000000\n")).collect();
    assert_eq!(written(&image, &journal, &many), stopped(&many[..31 * 13], 13));
    // Not in the form of an A4 line; a final piece without LF is not read.
    for none in
        ["\n", "A401000000\n", "A40100000001\n", "A4010000000011\n", "A10100000000\n", "a40100000000\n"]
    {
        assert_eq!(written(&image, &journal, none), stopped("", 4), "{none}");
    }
    assert_eq!(written(&image, "", "A40100000000"), image);
    assert_eq!(written("", &journal, additions), "10\n");
}

/// An addition accepted after the image is given again before replay reaches its number; at its number it is too late.
#[test]
fn given_again() {
    both(|host| {
        host.quiet_ticks(2);
        let image = host.image();
        assert_eq!(host.edition(5, &[0xAA]), 0);
        let answers: Vec<Vec<u8>> = (0..4).map(|_| host.command(&[0x00])).collect();
        assert_eq!(answers, [features(&PREFIX), features(&PREFIX), features(&[0xAA]), features(&[0xAA])]);
        let end = host.engine.state();
        for before in 3..=5 {
            host.engine.restore(&image).unwrap();
            let mut replayed = host.engine.replay(asking(3, before - 3).as_bytes()).answers;
            assert_eq!(host.edition(5, &[0xAA]), 0);
            replayed.extend(host.engine.replay(asking(1, 6).as_bytes()).answers);
            let returned: Vec<_> = replayed.iter().map(|answer| answer[5..].to_vec()).collect();
            assert_eq!(returned, answers);
            assert_eq!(host.engine.state(), end);
        }
        host.engine.restore(&image).unwrap();
        host.engine.replay(asking(3, 3).as_bytes());
        refused(host, 5, &[0xAA], 14);
    });
}

fn edition(from: u32, prefix: &[u8]) -> Call {
    Call::Edition { from, prefix: prefix.to_vec() }
}

fn journal(text: String) -> Call {
    Call::Replay { text: text.into_bytes() }
}

/// Restore an image with these lines behind A0, at position 2.
fn restore(lines: &str) -> Call {
    Call::Restore { text: format!("A002000000001EFC024D53\n{lines}AF0000\n").into_bytes() }
}

/// Calls behind a start, and the place of the call at which a wrong build differs; none where it does not: a replay that
/// reaches no other edition is right with the one at its end.
fn noticing() -> Vec<(Fault, Vec<Call>, Option<usize>)> {
    let save = || Call::Save { lent: 13162 };
    let full = || (1..=31).map(|from| edition(from, &[1])).collect::<Vec<_>>();
    let with = |last: Call| [full(), vec![last]].concat();
    let at_5 = |more: Vec<Call>| [vec![edition(5, &[0xAA])], more].concat();
    vec![
        (Fault::NewestAtOnce, at_5(vec![journal(asking(1, 4))]), Some(2)),
        (Fault::EditionOfReplayEnd, at_5(vec![journal(asking(1, 4)), journal(asking(5, 1))]), None),
        (Fault::EditionOfReplayEnd, at_5(vec![journal(asking(1, 5))]), Some(2)),
        (Fault::EditionOneLate, at_5(vec![journal(asking(1, 4)), journal(asking(5, 1))]), Some(3)),
        (Fault::FeaturesOldEdition, at_5(vec![journal(asking(1, 4)), journal(asking(5, 1))]), Some(3)),
        (
            Fault::FirstInHead,
            at_5(vec![journal(asking(1, 4)), save(), journal(asking(5, 1)), save()]),
            Some(5),
        ),
        (Fault::FullBeforeRising, with(edition(31, &[])), Some(32)),
        (Fault::RisingBeforeLong, vec![edition(0, &[0; 33])], Some(1)),
        (Fault::FullBeforeLong, with(edition(32, &[0; 33])), Some(32)),
        (Fault::LastEqualTaken, at_5(vec![edition(5, &[0xBB])]), Some(2)),
        (Fault::PositionEqualTaken, vec![journal(asking(1, 3)), edition(3, &[0xBB])], Some(2)),
        (Fault::FullOneLess, full(), Some(31)),
        (Fault::LongPrefixCut, vec![edition(1, &[0; 33])], Some(1)),
        (Fault::RefusedAdditionUsed, vec![edition(0, &[0xBB]), save()], Some(2)),
        (Fault::AdditionLost, at_5(vec![save(), Call::Failover, save()]), Some(4)),
        (
            Fault::AdditionLost,
            at_5(vec![Call::Failover, journal(asking(1, 4)), journal(asking(5, 1))]),
            Some(4),
        ),
        (Fault::NoEditionsTaken, vec![restore("")], Some(1)),
        (Fault::PassedEditionRefused, vec![restore("A40000000000\nA401000000024D53\n")], Some(1)),
        (
            Fault::EditionOrderNotChecked,
            vec![restore("A400000000024D53\nA40400000000\nA40300000000\n")],
            Some(1),
        ),
        (Fault::InForceNotChecked, vec![restore("A40000000000\n")], Some(1)),
    ]
}

/// Each wrong build differs just where its label says; the place behind the last call is the save at the end.
#[test]
fn wrong_builds() {
    for (fault, calls, place) in noticing() {
        let start = Call::Start { opcode: OPCODE, prefix: PREFIX.to_vec() };
        let calls = [vec![start], calls].concat();
        let expected = script::run(&mut History::default(), &calls);
        let found = script::first_difference(&mut Timers::with_fault(fault), &calls, &expected);
        assert_eq!(found, place, "{fault:?}");
        assert_eq!(script::first_difference(&mut Timers::default(), &calls, &expected), None);
    }
}

/// Sessions have additions that are accepted and ones that are refused by each number, and editions that are reached.
#[test]
fn sessions_with_additions() {
    let (mut accepted, mut reached, mut refused) = (0, 0, [0; 16]);
    for index in 0..1500 {
        let mut engine = Timers::default();
        let calls = generate::session(51, index, 80);
        let outcomes = script::run(&mut engine, &calls);
        for (call, outcome) in calls.iter().zip(outcomes) {
            if let Call::Edition { .. } = call {
                accepted += (outcome.refusal == 0) as u32;
                refused[outcome.refusal as usize] += 1;
            }
        }
        let state = engine.state();
        reached += (state.edition_count > 1 && state.editions[1].from <= state.position) as u32;
    }
    assert!(accepted > 1000 && reached > 100, "{accepted} {reached}");
    assert!([13, 14, 15].iter().all(|number| refused[*number] > 20), "{refused:?}");
}
