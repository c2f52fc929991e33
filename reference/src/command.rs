//! Document 01, "Commands": the status and return parameters of a command, and what it changes.

use crate::condition::{form, Form};
use crate::coverage::{hit, Rule};
use crate::fault::Fault;
use crate::limits::{rssi_in_range, CONDITION, INTERVAL_LEAST, INTERVAL_MOST, MONITORS};
use crate::options;
use crate::state::{Device, Monitor};

/// What a command looks at.
pub struct View<'a> {
    pub filter: u8,
    /// Bit h is set if handle h is live.
    pub live: u16,
    pub prefix: &'a [u8],
}

/// What an executed command changes beside the position.
#[derive(Clone, Copy, PartialEq, Eq, Debug)]
pub enum Change {
    Nothing,
    Add(Monitor),
    Cancel(u8),
    Filter(u8),
}

/// Return parameters and change.
pub struct Answer {
    pub returns: Vec<u8>,
    pub change: Change,
}

/// The fixed table: sub-opcode, parameter length counting the sub-opcode (03 and 0F: the least), answer length
/// (00: less its prefix).
const TABLE: [(u8, usize, usize); 5] =
    [(0x00, 1, 11), (0x03, 6, 3), (0x04, 2, 2), (0x05, 2, 2), (0x0F, 31, 3)];

/// RSSI monitoring and advertisement monitoring of legacy advertisements, and version 2 of the monitor command.
const FEATURES: u64 = 0x040C;

const UNKNOWN_COMMAND: u8 = 0x01;
const MEMORY_EXCEEDED: u8 = 0x07;
const COMMAND_DISALLOWED: u8 = 0x0C;
const INVALID_PARAMETERS: u8 = 0x12;

/// The answer to these parameters; the first is the sub-opcode.
pub fn answer(view: &View, parameters: &[u8], fault: Fault) -> Answer {
    let sub = parameters[0];
    let Some((_, length, answer_length)) = TABLE.iter().find(|row| row.0 == sub) else {
        hit(Rule::OtherSub);
        let named = if fault == Fault::OtherSubZero { 0 } else { sub };
        return Answer { returns: vec![UNKNOWN_COMMAND, named], change: Change::Nothing };
    };
    let adds = sub == 0x03 || sub == 0x0F;
    let right_length = if adds { parameters.len() >= *length } else { parameters.len() == *length };
    let outcome = match sub {
        0x00 => read_features(right_length),
        0x03 | 0x0F => add(view, parameters, right_length, fault),
        0x04 => cancel(view, parameters, right_length, fault),
        _ => enable(view, parameters, right_length, fault),
    };
    let returns = match (&outcome, sub) {
        (Ok(_), 0x00) => features(view, fault),
        (Ok(Change::Add(monitor)), _) => vec![0x00, sub, monitor.handle],
        (Ok(_), _) => vec![0x00, sub],
        (Err(status), 0x00) if fault == Fault::FailedReadLong => {
            let mut octets = features(view, fault);
            octets[0] = *status;
            octets
        }
        (Err(status), 0x0F) if fault == Fault::SecondAnswersFirst => vec![*status, 0x03, 0x00],
        (Err(status), _) if adds && fault != Fault::FailedAddShort => vec![*status, sub, 0x00],
        (Err(status), _) => vec![*status, sub],
    };
    if fault == Fault::None {
        let prefix = if sub == 0x00 && outcome.is_ok() { view.prefix.len() } else { 0 };
        let least = if sub == 0x00 && outcome.is_err() { 2 } else { *answer_length };
        assert_eq!(returns.len(), least + prefix, "the table's answer length");
    }
    Answer { returns, change: outcome.unwrap_or(Change::Nothing) }
}

/// 00, 00, features (8), prefix length, prefix.
fn features(view: &View, fault: Fault) -> Vec<u8> {
    let bits = if fault == Fault::FeatureMissing { FEATURES & !0x400 } else { FEATURES };
    let mut octets = vec![0x00, 0x00];
    octets.extend(bits.to_le_bytes());
    octets.push(view.prefix.len() as u8);
    octets.extend(view.prefix);
    octets
}

fn read_features(right_length: bool) -> Result<Change, u8> {
    if !right_length {
        hit(Rule::ReadLength);
        return Err(INVALID_PARAMETERS);
    }
    hit(Rule::ReadSuccess);
    Ok(Change::Nothing)
}

/// The monitor that the parameters of 03 or 0F ask for, with no handle yet, and its condition of any length.
fn wanted(parameters: &[u8]) -> (Monitor, &[u8]) {
    let mut monitor = Monitor {
        high: parameters[1] as i8,
        low: parameters[2] as i8,
        interval: parameters[3],
        sampling: parameters[4],
        ..Monitor::NONE
    };
    let mut rest = &parameters[5..];
    if parameters[0] == 0x0F {
        (monitor.options, monitor.reports) = (rest[0], rest[1]);
        monitor.peer = Device { kind: rest[8], address: rest[2..8].try_into().unwrap() };
        monitor.irk = rest[9..25].try_into().unwrap();
        rest = &rest[25..];
    }
    monitor.kind = rest[0];
    (monitor, &rest[1..])
}

/// 03 and 0F, their failures in the document's order.
fn add(view: &View, parameters: &[u8], right_length: bool, fault: Fault) -> Result<Change, u8> {
    let fail = |rule, status| {
        hit(rule);
        Err(status)
    };
    let second = parameters[0] == 0x0F;
    if !right_length {
        return fail(if second { Rule::SecondShort } else { Rule::AddShort }, INVALID_PARAMETERS);
    }
    let (mut monitor, condition) = wanted(parameters);
    let Monitor { high, low, interval, kind, .. } = monitor;
    if !threshold_in_range(high, fault) || !threshold_in_range(low, fault) {
        return fail(Rule::AddThreshold, INVALID_PARAMETERS);
    }
    if low > high || (low == high && fault == Fault::EqualRefused) {
        return fail(Rule::AddOrder, INVALID_PARAMETERS);
    }
    if !interval_in_range(interval, fault) {
        return fail(Rule::AddInterval, INVALID_PARAMETERS);
    }
    let form = form(kind, condition);
    if form == Form::NoType {
        return fail(Rule::AddType, INVALID_PARAMETERS);
    }
    let full = view.live.count_ones() as usize >= if fault == Fault::FifteenMonitors { 15 } else { MONITORS };
    if kind == 3 && fault == Fault::KeyRefused {
        return Err(INVALID_PARAMETERS);
    }
    if second && full && fault == Fault::FullBeforeForbidden {
        return Err(MEMORY_EXCEEDED);
    }
    if second && options::forbidden(&monitor, fault) {
        return fail(
            if full { Rule::SecondForbiddenFull } else { Rule::SecondForbidden },
            INVALID_PARAMETERS,
        );
    }
    if condition.len() > CONDITION && fault == Fault::LongBeforeMalformed {
        return Err(MEMORY_EXCEEDED);
    }
    if form == Form::Malformed {
        return fail(Rule::AddMalformed, INVALID_PARAMETERS);
    }
    if condition.len() > if fault == Fault::Condition63 { 63 } else { CONDITION } {
        return fail(Rule::AddLong, MEMORY_EXCEEDED);
    }
    if full {
        return fail(Rule::AddFull, MEMORY_EXCEEDED);
    }
    count_added(view, &monitor);
    monitor.handle = new_handle(view.live, fault);
    monitor.length = condition.len() as u8;
    monitor.octets[..condition.len()].copy_from_slice(condition);
    if fault == Fault::ReservedDropped {
        (monitor.options, monitor.reports) = (monitor.options & 0x3F, monitor.reports & 0x0F);
    }
    Ok(Change::Add(monitor))
}

/// Count what an accepted command reaches.
fn count_added(view: &View, monitor: &Monitor) {
    let rules = [
        (true, Rule::AddSuccess),
        (monitor.high == monitor.low, Rule::AddEqual),
        (monitor.kind == 3, Rule::AddKey),
        (monitor.second(), Rule::SecondSuccess),
        (view.live.leading_zeros() < view.live.count_zeros(), Rule::AddReused),
    ];
    rules.iter().filter(|(reached, _)| *reached).for_each(|(_, rule)| hit(*rule));
}

fn threshold_in_range(threshold: i8, fault: Fault) -> bool {
    match fault {
        Fault::Threshold21 if threshold == 21 => true,
        Fault::Threshold20Refused if threshold == 20 => false,
        _ => rssi_in_range(threshold),
    }
}

fn interval_in_range(interval: u8, fault: Fault) -> bool {
    match fault {
        Fault::Interval0 if interval == 0 => true,
        Fault::Interval60Refused if interval == 60 => false,
        Fault::Interval61 if interval == 61 => true,
        _ => (INTERVAL_LEAST..=INTERVAL_MOST).contains(&interval),
    }
}

/// The lowest handle not live.
fn new_handle(live: u16, fault: Fault) -> u8 {
    if fault == Fault::HandleAboveLast {
        return (16 - live.leading_zeros() as u8).min(15);
    }
    (0..MONITORS as u8).find(|h| live >> h & 1 == 0).unwrap()
}

/// 04: length, then no such live handle.
fn cancel(view: &View, parameters: &[u8], right_length: bool, fault: Fault) -> Result<Change, u8> {
    if !right_length {
        hit(Rule::CancelLength);
        return Err(INVALID_PARAMETERS);
    }
    let handle = parameters[1];
    if handle as usize >= MONITORS || view.live >> handle & 1 == 0 {
        hit(Rule::CancelNone);
        return if fault == Fault::CancelAnyHandle { Ok(Change::Nothing) } else { Err(INVALID_PARAMETERS) };
    }
    hit(Rule::CancelSuccess);
    Ok(Change::Cancel(handle))
}

/// 05: length, then enable above 1, then equal to the present setting.
fn enable(view: &View, parameters: &[u8], right_length: bool, fault: Fault) -> Result<Change, u8> {
    if !right_length {
        hit(Rule::EnableLength);
        return Err(INVALID_PARAMETERS);
    }
    let wanted = parameters[1];
    if wanted == 2 && fault == Fault::Enable2Taken {
        return Ok(Change::Filter(1));
    }
    if wanted > 1 {
        hit(Rule::EnableValue);
        return Err(INVALID_PARAMETERS);
    }
    if wanted == view.filter {
        hit(Rule::EnableEqual);
        return if fault == Fault::EnableEqualTaken { Ok(Change::Nothing) } else { Err(COMMAND_DISALLOWED) };
    }
    hit(if wanted == 1 { Rule::EnableOn } else { Rule::EnableOff });
    Ok(Change::Filter(wanted))
}
