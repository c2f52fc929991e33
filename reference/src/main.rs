//! The command line of the reference.

use reference::engine::Engine;
use reference::fault::{Fault, VECTOR_FAULTS};
use reference::state::Device;
use reference::{calls, case, cases, census, compare, cost, history::History, month, program, timers::Timers, twin::Twin};
use std::io::{self, Write};
use std::path::Path;
use std::process::ExitCode;
use std::{env, fs};

const USAGE: &str = "\
reference replay IMAGE JOURNAL      what document 01 says the program writes (engine with stored timers)
reference replay IMAGE JOURNAL ADDITIONS   the same, with editions of the prefix added before the journal, an A4
                                    line each
reference replay IMAGE JOURNAL [ADDITIONS] N   the same with wrong build N switched on (docs/RELIABILITY.md); a word
                                    of digits is a number, not a file
reference history IMAGE JOURNAL [ADDITIONS]   the same by the history rule
reference twin IMAGE JOURNAL [ADDITIONS]   the same by the slow twin: a fresh image, at most 128 frames
reference calls DIR SEED COUNT      writes DIR/stdin and DIR/stdout: COUNT scripts for crates/calls_run
reference calls DIR SEED COUNT N    the same scripts, and what wrong build N gives
reference cases DIR SEED COUNT      writes COUNT cases: DIR/N.image, N.journal, N.expected, and where there are any
                                    N.additions
reference sessions DIR SEED COUNT   writes COUNT whole sessions for the slow twin: DIR/N.image, fresh, N.journal, N.expected
reference answers IMAGE JOURNAL     each executed frame's events in hexadecimal, a line for each frame; then the number
                                    of the refusal that stopped the journal, or a dash; 10 alone for a refused image
reference watchers IMAGE TYPE ADDRESS   how many monitors watch a device, and the lowest handle
reference month IMAGE JOURNAL       the rows of a journal: handle, packets, reports, ticks, sum
reference month --join IMAGE JOURNAL ..   the rows of several sites joined; 12 where a total would pass 64 bits
reference vectors KIND SEED COUNT   COUNT vectors, KIND: lines frames conditions sections blocks commands
                                    images means
reference costs SEED COUNT          COUNT vectors of the cost of a match
reference costs SEED COUNT N        what wrong build N of those that only vectors notice gives
reference coverage SEED COUNT       how often COUNT scripts reach each rule, status and refusal
reference agree SEED COUNT          compares the two engines on COUNT sessions and COUNT scripts
reference faults SEED COUNT         how many of COUNT scripts notice each wrong build
";

fn main() -> ExitCode {
    let arguments: Vec<String> = env::args().skip(1).collect();
    let arguments: Vec<&str> = arguments.iter().map(String::as_str).collect();
    match run(&arguments) {
        Ok(text) => match io::stdout().write_all(&text) {
            Ok(()) => ExitCode::SUCCESS,
            Err(_) => ExitCode::from(3),
        },
        Err((status, message)) => {
            eprint!("{message}");
            ExitCode::from(status)
        }
    }
}

fn run(arguments: &[&str]) -> Result<Vec<u8>, (u8, String)> {
    match arguments {
        ["replay", image, journal, rest @ ..] if rest.len() <= 2 => {
            let (fault, rest) = match rest.split_last() {
                Some((word, before)) if word.bytes().all(|c| c.is_ascii_digit()) => (number(word)?, before),
                _ => (0, rest),
            };
            let fault = Fault::of_number(fault as usize).ok_or_else(usage)?;
            replay(&mut Timers::with_fault(fault), image, journal, rest)
        }
        ["answers", image, journal] => Ok(program::answers(&mut Timers::default(), &read(image)?, &read(journal)?)),
        ["history", image, journal, rest @ ..] => replay(&mut History::default(), image, journal, rest),
        ["twin", image, journal, rest @ ..] => replay(&mut Twin::default(), image, journal, rest),
        ["calls", folder, seed, count] => {
            write_calls(Path::new(folder), number(seed)?, number(count)?, Fault::None)
        }
        ["calls", folder, seed, count, fault] => {
            let fault = Fault::of_number(number(fault)? as usize).ok_or_else(usage)?;
            write_calls(Path::new(folder), number(seed)?, number(count)?, fault)
        }
        ["cases", folder, seed, count] => write_cases(Path::new(folder), number(seed)?, number(count)?, case::case),
        ["sessions", folder, seed, count] => write_cases(Path::new(folder), number(seed)?, number(count)?, case::whole),
        ["month", "--join", sites @ ..] if sites.len() % 2 == 0 => joined(sites),
        ["month", image, journal] => rows(&read(image)?, &read(journal)?),
        ["watchers", image, kind, address] => watchers(&read(image)?, kind, address),
        ["vectors", kind, seed, count] => {
            let rows = cases::vectors(kind, number(seed)?, number(count)? as usize).ok_or_else(usage)?;
            Ok((rows.join("\n") + "\n").into_bytes())
        }
        ["costs", seed, count] => {
            Ok((cost::costs(number(seed)?, number(count)?, Fault::None).join("\n") + "\n").into_bytes())
        }
        ["costs", seed, count, fault] => {
            let place = (number(fault)? as usize).checked_sub(1).ok_or_else(usage)?;
            let (fault, _) = VECTOR_FAULTS.get(place).ok_or_else(usage)?;
            Ok((cost::costs(number(seed)?, number(count)?, *fault).join("\n") + "\n").into_bytes())
        }
        ["coverage", seed, count] => {
            let rules = compare::reached(number(seed)?, number(count)?);
            Ok(rules
                .iter()
                .map(|(_, words, n)| format!("{n:>10} {words}\n"))
                .collect::<String>()
                .into_bytes())
        }
        ["agree", seed, count] => {
            let (seed, count) = (number(seed)?, number(count)?);
            let mut text = String::new();
            for (kind, differ) in [
                ("session", compare::session_disagreements(seed, count)),
                ("script", compare::disagreements(seed, count)),
            ] {
                text += &format!("{} of {count} {kind}s differ\n", differ.len());
                for (index, place) in differ.iter().take(10) {
                    text += &format!("{kind} {index} at call {place}\n");
                }
            }
            Ok(text.into_bytes())
        }
        ["faults", seed, count] => {
            let mut text = String::from("| No. | Fault | Sessions |\n|---|---|---|\n");
            for (place, (_, words, n)) in compare::noticed(number(seed)?, number(count)?).iter().enumerate() {
                text += &format!("| {} | {words} | {n} |\n", place + 1);
            }
            Ok(text.into_bytes())
        }
        _ => Err(usage()),
    }
}

/// What the program writes of these files; `rest` may have a file of additions.
fn replay(
    engine: &mut dyn Engine,
    image: &str,
    journal: &str,
    rest: &[&str],
) -> Result<Vec<u8>, (u8, String)> {
    let additions = match rest {
        [] => Vec::new(),
        [path] => read(path)?,
        _ => return Err(usage()),
    };
    Ok(program::output(engine, &read(image)?, &read(journal)?, &additions))
}

/// `COUNT HANDLE`, or `none`, or `10` for a text that is not an image. The address is as people write it.
fn watchers(image: &[u8], kind: &str, address: &str) -> Result<Vec<u8>, (u8, String)> {
    let kind = ["public", "random"].iter().position(|word| *word == kind).ok_or_else(usage)? as u8;
    let octets: Option<Vec<u8>> = address.split(':').map(|two| u8::from_str_radix(two, 16).ok()).collect();
    let mut address: [u8; 6] = octets.and_then(|octets| octets.try_into().ok()).ok_or_else(usage)?;
    address.reverse();
    let mut engine = Timers::default();
    let text = match (engine.restore(image), engine.ask(&Device { kind, address })) {
        (Err(refusal), _) => refusal.number().to_string(),
        (_, Some((count, lowest))) => format!("{count} {lowest}"),
        _ => "none".to_string(),
    };
    Ok((text + "\n").into_bytes())
}

/// The rows of several sites joined, handle by handle. A site that is refused ends it with its number.
fn joined(sites: &[&str]) -> Result<Vec<u8>, (u8, String)> {
    let mut all = [month::Row::default(); 16];
    for site in sites.chunks(2) {
        let mut engine = Timers::default();
        let mut rows = [month::Row::default(); 16];
        let refused = match engine.restore(&read(site[0])?) {
            Err(refusal) => Some(refusal),
            Ok(()) => month::replay(&mut engine, &read(site[1])?, &mut rows, month::Wrong::None),
        };
        let sums = rows.iter().zip(&all).map(|(row, sum)| month::join(sum, row, month::WrongJoin::None));
        let sums: Vec<_> = sums.collect();
        if let Some(refusal) = refused.or(sums.iter().find_map(|(_, refusal)| *refusal)) {
            return Ok(format!("{}\n", refusal.number()).into_bytes());
        }
        all = std::array::from_fn(|handle| sums[handle].0);
    }
    Ok(month::text(&all).into_bytes())
}

/// The sixteen rows, and the number of the refusal that stopped the journal; `10` for a text that is not an image.
fn rows(image: &[u8], journal: &[u8]) -> Result<Vec<u8>, (u8, String)> {
    let mut engine = Timers::default();
    if let Err(refusal) = engine.restore(image) {
        return Ok(format!("{}\n", refusal.number()).into_bytes());
    }
    let mut rows = [month::Row::default(); 16];
    let refusal = month::replay(&mut engine, journal, &mut rows, month::Wrong::None);
    let number = refusal.map_or(String::new(), |refusal| format!("{}\n", refusal.number()));
    Ok((month::text(&rows) + &number).into_bytes())
}

fn usage() -> (u8, String) {
    (2, USAGE.to_string())
}

fn number(text: &str) -> Result<u64, (u8, String)> {
    text.parse().map_err(|_| usage())
}

fn read(path: &str) -> Result<Vec<u8>, (u8, String)> {
    fs::read(path).map_err(|error| (3, format!("{path}: {error}\n")))
}

fn write_cases(
    folder: &Path,
    seed: u64,
    count: u64,
    made: fn(u64, u64) -> case::Case,
) -> Result<Vec<u8>, (u8, String)> {
    let failed = |error: io::Error| (3, format!("{}: {error}\n", folder.display()));
    fs::create_dir_all(folder).map_err(failed)?;
    for index in 1..=count {
        let case = made(seed, index);
        for (ending, text) in [
            ("image", &case.image),
            ("journal", &case.journal),
            ("additions", &case.additions),
            ("expected", &case.expected),
        ] {
            if ending != "additions" || !text.is_empty() {
                fs::write(folder.join(format!("{index:06}.{ending}")), text).map_err(failed)?;
            }
        }
    }
    Ok(Vec::new())
}

fn write_calls(folder: &Path, seed: u64, count: u64, fault: Fault) -> Result<Vec<u8>, (u8, String)> {
    let failed = |error: io::Error| (3, format!("{}: {error}\n", folder.display()));
    let scripts = calls::scripts(seed, count as usize);
    let input: Vec<u8> = scripts.iter().flat_map(calls::input).collect();
    let lines: String = scripts
        .iter()
        .map(|script| match fault {
            Fault::None => calls::line(&calls::expected(&script.calls)),
            _ => calls::line(&calls::expected_wrong(&script.calls, fault)),
        })
        .collect();
    fs::create_dir_all(folder).map_err(failed)?;
    fs::write(folder.join("stdin"), input).map_err(failed)?;
    fs::write(folder.join("stdout"), lines).map_err(failed)?;
    Ok(census::census(&scripts).text().into_bytes())
}
