//! The library beside the independent implementation.

use library::compare::{self, Counts};
use library::engine::Library;
use library::rows;
use library::timing;
use reference::chain::{chain, Met};
use reference::fault::{Fault, FAULTS};
use reference::month::{Wrong, WRONG};
use std::process::ExitCode;
use std::{env, fs};

/// The header, which says the version.
const HEADER: &str = include_str!("../../../include/bournejade.h");

const USAGE: &str = "\
library compare COUNT SEED            COUNT random sessions and scripts through both
library costs COUNT SEED              COUNT pattern conditions against texts: matches or not, and the comparisons
library rows COUNT SEED               their frames counted in lent rows, and how many notice each wrong count
library chains COUNT SEED             COUNT chains of up to ten failovers, beside the unbroken session
library faults COUNT SEED             how many of them notice each wrong build of the independent implementation
library time IMAGE JOURNAL TIMES      replay in memory by the library, the independent implementation, the rival, and reading
                                      the hexadecimal alone: nanoseconds a line, the shortest of TIMES runs
library run WHO IMAGE JOURNAL         one replay by WHO, library, reference, rival or limit: the octets of the answers
";

fn main() -> ExitCode {
    let words: Vec<String> = env::args().skip(1).collect();
    let words: Vec<&str> = words.iter().map(String::as_str).collect();
    match run(&words) {
        Ok(text) => {
            println!("{text}");
            ExitCode::SUCCESS
        }
        Err(message) => {
            eprintln!("{message}");
            ExitCode::FAILURE
        }
    }
}

fn run(words: &[&str]) -> Result<String, String> {
    match words {
        ["compare", count, seed] => compared(number(count)?, number(seed)?),
        ["costs", count, seed] => costs(number(count)?, number(seed)?),
        ["rows", count, seed] => counted(number(count)?, number(seed)?),
        ["chains", count, seed] => chained(number(count)?, number(seed)?),
        ["faults", count, seed] => Ok(faults(number(count)?, number(seed)?)),
        ["time", image, journal, times] => time(&read(image)?, &read(journal)?, number(times)? as usize),
        ["run", who, image, journal] => {
            let replay = match *who {
                "library" => timing::by_library,
                "reference" => timing::by_reference,
                "rival" => timing::by_rival,
                "limit" => timing::by_limit,
                _ => return Err(USAGE.to_string()),
            };
            let answers = replay(&read(image)?, &read(journal)?).ok_or("refused")?;
            Ok(answers.len().to_string())
        }
        _ => Err(USAGE.to_string()),
    }
}

fn number(text: &str) -> Result<u64, String> {
    text.parse().map_err(|_| USAGE.to_string())
}

fn read(path: &str) -> Result<Vec<u8>, String> {
    fs::read(path).map_err(|error| format!("{path}: {error}"))
}

fn compared(count: u64, seed: u64) -> Result<String, String> {
    let (version, sizes) = library::sizes();
    let says = format!("#define BOURNEJADE_VERSION 0x{version:06X}\n");
    if sizes != [library::STATE, library::ANSWER, library::IMAGE, library::LINE] || !HEADER.contains(&says) {
        return Err("the library's version and sizes are others".to_string());
    }
    let mut counts = Counts::default();
    for index in 0..count {
        if let Some(place) = compare::first_difference(seed, index, Fault::None, &mut counts) {
            return Err(format!("seed {seed}, script {index}: call {place} differs"));
        }
    }
    let Counts { scripts, calls, octets } = counts;
    Ok(format!("{scripts} scripts, {calls} calls, {octets} octets written: no difference"))
}

fn costs(count: u64, seed: u64) -> Result<String, String> {
    let rows = reference::cost::costs(seed, count, Fault::None);
    for row in &rows {
        let words: Vec<&str> = row.split(' ').collect();
        let [condition, adv, scan, matches, comparisons] = words[..] else { return Err(row.clone()) };
        let (found, count) = library::match_cost(&octets(condition)?, &octets(adv)?, &octets(scan)?);
        if (found.to_string(), count.to_string()) != (matches.to_string(), comparisons.to_string()) {
            return Err(format!("{row}: the library says {found} {count}"));
        }
    }
    Ok(format!("{} matches with their costs: no difference", rows.len()))
}

fn counted(count: u64, seed: u64) -> Result<String, String> {
    let mut counts = rows::Counts::default();
    for index in 0..count {
        if let Some(place) = rows::first_difference(seed, index, Wrong::None, &mut counts) {
            return Err(format!("seed {seed}, script {index}: the rows of call {place} differ"));
        }
    }
    let few = count.min(200);
    let noticed = |wrong: Wrong| {
        (0..few)
            .filter(|i| rows::first_difference(seed, *i, wrong, &mut rows::Counts::default()).is_some())
            .count()
    };
    let wrong: Vec<String> = WRONG.iter().map(|(wrong, _)| noticed(*wrong).to_string()).collect();
    let rows::Counts { scripts, lines, counted, passes } = counts;
    let wrong = wrong.join(" ");
    Ok(format!(
        "{scripts} scripts, {lines} lines with rows, {counted} with totals, {passes} refused with 12: no difference; \
         the wrong counts differ in {wrong} of {few}"
    ))
}

fn chained(count: u64, seed: u64) -> Result<String, String> {
    let mut met = Met::default();
    for index in 0..count {
        let mut library = Library {
            piece: 1 + (index as usize) % 700,
            lent: 2880 + (index as usize) % 3200,
            ..Library::default()
        };
        let (one, found) = chain(&mut library, seed, index);
        if !found.is_empty() {
            return Err(format!("seed {seed}, chain {index}: {found:?}"));
        }
        met = met.and(one);
    }
    let Met { failovers, frames, replayed, additions, starts, stops, displaced } = met;
    Ok(format!(
        "{count} chains, {failovers} failovers, {frames} frames, {replayed} replayed, {additions} additions, \
         {starts} starts, {stops} stops at ticks, {displaced} by a full table: no difference"
    ))
}

/// The octets of a text of digits; `-` is none.
fn octets(text: &str) -> Result<Vec<u8>, String> {
    let text = if text == "-" { "" } else { text };
    let pair =
        |i: usize| u8::from_str_radix(text.get(i..i + 2).unwrap_or("?"), 16).map_err(|_| text.to_string());
    (0..text.len()).step_by(2).map(pair).collect()
}

fn faults(count: u64, seed: u64) -> String {
    let noticed = |fault: Fault| {
        (0..count)
            .filter(|i| compare::first_difference(seed, *i, fault, &mut Counts::default()).is_some())
            .count()
    };
    let rows = FAULTS.iter().enumerate().map(|(place, (fault, words))| (place + 1, words, noticed(*fault)));
    rows.map(|(n, words, times)| format!("{n:>4} {times:>6} {words}")).collect::<Vec<_>>().join("\n")
}

fn time(image: &[u8], journal: &[u8], times: usize) -> Result<String, String> {
    let lines = journal.iter().filter(|c| **c == b'\n').count() as u128;
    let timed = |replay: fn(&[u8], &[u8]) -> Option<Vec<u8>>| {
        timing::timed(|| replay(image, journal), times).ok_or("refused")
    };
    let (ours, fast) = timed(timing::by_library)?;
    let (theirs, slow) = timed(timing::by_reference)?;
    let (plain, rival) = timed(timing::by_rival)?;
    let (_, limit) = timed(timing::by_limit)?;
    if ours != theirs || ours != plain {
        return Err("the answers differ".to_string());
    }
    let line = |time: u128| time as f64 / lines as f64;
    Ok(format!("{:.1} {:.1} {:.1} {:.1}", line(fast), line(slow), line(rival), line(limit)))
}
