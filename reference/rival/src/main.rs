//! The rival beside the independent implementation.

mod compare;

use compare::Counts;
use reference::fault::{Fault, FAULTS};
use std::env;
use std::process::ExitCode;

const USAGE: &str = "\
rival compare COUNT SEED    COUNT random sessions by the rival and by the independent implementation, frame by frame
rival faults COUNT SEED     the first of them that notices each wrong build of the independent implementation, or `none`";

fn main() -> ExitCode {
    let words: Vec<String> = env::args().skip(1).collect();
    let words: Vec<&str> = words.iter().map(String::as_str).collect();
    let told = match words[..] {
        ["compare", count, seed] => numbers(count, seed).and_then(|(count, seed)| compared(count, seed)),
        ["faults", count, seed] => numbers(count, seed).map(|(count, seed)| faults(count, seed)),
        _ => Err(USAGE.to_string()),
    };
    match told {
        Ok(text) => {
            println!("{text}");
            ExitCode::SUCCESS
        }
        Err(message) => {
            eprintln!("{message}");
            ExitCode::FAILURE
        }
    }
}

fn numbers(count: &str, seed: &str) -> Result<(u64, u64), String> {
    let number = |text: &str| text.parse().map_err(|_| USAGE.to_string());
    Ok((number(count)?, number(seed)?))
}

fn compared(count: u64, seed: u64) -> Result<String, String> {
    let mut counts = Counts::default();
    for index in 0..count {
        if let Some(place) = compare::first_difference(seed, index, Fault::None, &mut counts) {
            return Err(format!("seed {seed}, session {index}: call {place} differs"));
        }
    }
    let Counts { sessions, frames, refusals, octets, full, second, keys, scans } = counts;
    let refused = (1..refusals.len()).map(|n| format!("{n}: {}", refusals[n])).collect::<Vec<_>>().join(", ");
    Ok(format!(
        "{sessions} sessions, {frames} frames ({full} with a full table, {second} with monitors of version 2, \
         {keys} with keys, {scans} with scan responses), refusals {refused}; {octets} octets written: no difference"
    ))
}

fn faults(count: u64, seed: u64) -> String {
    let notices = |fault: Fault| {
        let differs = |i: &u64| compare::first_difference(seed, *i, fault, &mut Counts::default()).is_some();
        (0..count).find(differs).map_or("none".to_string(), |index| index.to_string())
    };
    let rows = FAULTS.iter().enumerate().map(|(place, (fault, words))| (place + 1, words, notices(*fault)));
    rows.map(|(n, words, first)| format!("{n:>4} {first:>6} {words}")).collect::<Vec<_>>().join("\n")
}
