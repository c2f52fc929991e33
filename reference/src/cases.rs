//! Single vectors, a line each.

use crate::aes;
use crate::command::{self, View};
use crate::condition::{self, Form, Text};
use crate::engine::{write_line, Engine};
use crate::fault::Fault;
use crate::frame::{self, Packet, Payload};
use crate::generate::{self, conditions, states, texts};
use crate::history::History;
use crate::image;
use crate::limits::{ANSWER, CONDITION};
use crate::lines::{self, hex};
use crate::private;
use crate::random::Random;
use crate::script::{self, Call};
use crate::state::State;
use crate::timers::Timers;

/// The octets of the frame that a call gives.
pub fn given(call: &Call) -> Option<Vec<u8>> {
    match call {
        Call::Octets { octets, .. } => Some(octets.clone()),
        Call::Line { text, .. } => lines::read(text, Fault::None),
        _ => None,
    }
}

/// `count` vectors of a kind, a line each, fields in hexadecimal with `-` for an empty one.
pub fn vectors(kind: &str, seed: u64, count: usize) -> Option<Vec<String>> {
    let make: fn(u64, u64) -> Vec<String> = match kind {
        "lines" => line_vectors,
        "frames" => frame_vectors,
        "conditions" => condition_vectors,
        "sections" => section_vectors,
        "blocks" => block_vectors,
        "commands" => command_vectors,
        "images" => image_vectors,
        "means" => mean_vectors,
        _ => return None,
    };
    let mut all = Vec::new();
    let mut index = 0;
    while all.len() < count {
        all.extend(make(seed, index));
        index += 1;
    }
    all.truncate(count);
    Some(all)
}

/// `read TEXT OCTETS`, or `no` for the octets if the text is not a line;
/// `write LENT OCTETS TEXT`, or the refusal's number for the text.
fn line_vectors(seed: u64, index: u64) -> Vec<String> {
    let mut rows = Vec::new();
    for call in generate::script(seed, index) {
        match call {
            Call::Line { text, .. } => {
                let octets = lines::read(&text, Fault::None);
                rows.push(format!("read {} {}", hex(&text), octets.map_or("no".to_string(), |o| hex(&o))));
            }
            Call::WriteLine { octets, lent } => {
                let mut out = vec![0; lent];
                let written = match write_line(&octets, &mut out, Fault::None) {
                    Ok(length) => hex(&out[..length]),
                    Err(refusal) => refusal.number().to_string(),
                };
                rows.push(format!("write {lent} {} {written}", hex(&octets)));
            }
            _ => (),
        }
    }
    rows
}

/// `POSITION OPCODE OCTETS REFUSAL` for a state without pairs: the refusal's number, 0 for an executed frame.
fn frame_vectors(seed: u64, index: u64) -> Vec<String> {
    let mut follower = Timers::default();
    let mut rows = Vec::new();
    for call in generate::script(seed, index) {
        if let Call::Octets { octets, .. } = &call {
            let held = follower.state();
            if held.opcode >= 0xFC00 {
                let mut state = State::fresh(held.opcode, &[]);
                state.position = held.position;
                let mut engine = History::default();
                engine.adopt(&state);
                let refusal = engine.submit(octets, &mut [0; ANSWER]).err().map_or(0, |r| r.number());
                rows.push(format!("{:08X} {:04X} {} {refusal}", state.position, state.opcode, hex(octets)));
            }
        }
        script::call(&mut follower, &call);
    }
    rows
}

/// `TYPE CONDITION ADDRESS-TYPE ADDRESS DATA SCAN ANSWER`: SCAN is `no` for a packet of kind 02; ANSWER is `match`,
/// `none`, `malformed` or `type`.
fn condition_vectors(seed: u64, index: u64) -> Vec<String> {
    let mut random = Random::of(seed, index);
    let devices = states::devices(&mut random);
    let (kind, octets) = match random.below(10) {
        0 => conditions::malformed(&mut random),
        1 => (random.pick(&[0, 5, 255]), random.octets(16)),
        2 => (1, conditions::longest(&mut random)),
        _ => conditions::well_formed(&mut random, &devices),
    };
    let well_formed = condition::form(kind, &octets) == Form::WellFormed;
    let mut state = State::blank();
    if well_formed && octets.len() <= CONDITION {
        let parameters = generate::frames::monitor(-60, -80, 1, 0, kind, &octets);
        let view = View { filter: 0, live: 0, prefix: &[] };
        if let command::Change::Add(monitor) = command::answer(&view, &parameters, Fault::None).change {
            state.monitors[0] = monitor;
            state.monitor_count = 1;
        }
    }
    let rows = (0..6).map(|_| {
        let device = match <&private::Key>::try_from(&octets[..]) {
            Ok(key) if kind == 3 => states::private_device(&mut random, key),
            _ => random.pick(&devices),
        };
        let (data, scan) = conditions::texts(&mut random, state.monitors());
        let scan = random.percent(50).then_some(scan);
        let packet = Packet { event_type: 0, device, data, scan, rssi: 0 };
        let answer = match condition::form(kind, &octets) {
            Form::Malformed => "malformed",
            Form::NoType => "type",
            Form::WellFormed if condition::matches(kind, &octets, &packet, Fault::None) => "match",
            Form::WellFormed => "none",
        };
        let scan = packet.scan.map_or("no".to_string(), |scan| hex(&scan));
        let fields = (hex(&octets), packet.device.kind, hex(&device.address), hex(&packet.data));
        format!("{kind:02X} {} {:02X} {} {} {scan} {answer}", fields.0, fields.1, fields.2, fields.3)
    });
    rows.collect()
}

/// `AD-TYPE AFTER DATA SCAN WHERE PART`: the structure of this AD type behind so many others of it, the advertisement's
/// before the scan response's; WHERE is `advertisement`, `scan` or `none`, PART its octets after the AD type.
pub fn section_vectors(seed: u64, index: u64) -> Vec<String> {
    sections_by(seed, index, Fault::None)
}

/// The same by a wrong build.
pub fn sections_by(seed: u64, index: u64, fault: Fault) -> Vec<String> {
    let mut random = Random::of(seed, index);
    let devices = states::devices(&mut random);
    let state = states::sound(&mut random, &devices);
    let (data, scan) = conditions::texts(&mut random, state.monitors());
    let list = condition::sections(&data, Some(&scan), fault);
    let mut wanted: Vec<u8> = list.iter().map(|s| s.ad_type).chain([0x09]).collect();
    wanted.sort_unstable();
    wanted.dedup();
    let mut rows = Vec::new();
    for ad_type in wanted {
        let mut found = list.iter().filter(|s| s.ad_type == ad_type);
        for after in 0.. {
            let next = found.next();
            let (place, part) = match next {
                Some(s) if s.text == Text::Advertisement => ("advertisement", hex(s.content)),
                Some(s) => ("scan", hex(s.content)),
                None => ("none", hex(&[])),
            };
            rows.push(format!("{ad_type:02X} {after} {} {} {place} {part}", hex(&data), hex(&scan)));
            if next.is_none() {
                break;
            }
        }
    }
    rows
}

/// `FILTER LIVE PREFIX PARAMETERS RETURNS`: LIVE has bit h for handle h, RETURNS are the return parameters.
fn command_vectors(seed: u64, index: u64) -> Vec<String> {
    let mut follower = Timers::default();
    let mut rows = Vec::new();
    for call in generate::script(seed, index) {
        let before = follower.state();
        let outcome = script::call(&mut follower, &call);
        let payload =
            given(&call).filter(|_| outcome.refusal == 0).and_then(|o| frame::payload(&o, Fault::None));
        if let Some(Payload::Command { parameters, .. }) = payload {
            let live = before.monitors().iter().fold(0u16, |mask, m| mask | 1 << m.handle);
            let fields =
                (before.filter, hex(before.prefix()), hex(&parameters), hex(&outcome.written[0][5..]));
            rows.push(format!("{:02X} {live:04X} {} {} {}", fields.0, fields.1, fields.2, fields.3));
        }
    }
    rows
}

/// `TEXT ANSWER`: `ok`, or `10` if it is not an image.
fn image_vectors(seed: u64, index: u64) -> Vec<String> {
    let mut random = Random::of(seed, index);
    let devices = states::devices(&mut random);
    let state = states::sound(&mut random, &devices);
    let text = image::text(&state);
    let way = random.below(states::WAYS);
    let mut all = vec![texts::damage(&mut random, &text), texts::damage(&mut random, &text), text];
    all.extend(states::broken(&mut random, &state, way).map(|broken| image::text(&broken)));
    let rows = all.iter().map(|text| {
        let answer = if Timers::default().restore(text).is_ok() { "ok" } else { "10" };
        format!("{} {answer}", hex(text))
    });
    rows.collect()
}

/// `KEY BLOCK CIPHER`: AES-128, octets in FIPS 197's order.
fn block_vectors(seed: u64, index: u64) -> Vec<String> {
    let mut random = Random::of(seed, index);
    let [key, block]: [[u8; 16]; 2] = std::array::from_fn(|_| random.octets(16).try_into().unwrap());
    vec![format!("{} {} {}", hex(&key), hex(&block), hex(&aes::encrypt(&key, &block, Fault::None)))]
}

/// `SUM COUNT MEAN`: the sum as 8 octets and the count as 4, as in an A3 line; the mean as its octet.
fn mean_vectors(seed: u64, index: u64) -> Vec<String> {
    let mut random = Random::of(seed, index);
    let count = random.pick(&[1, 2, 3, 7, 1000, u32::MAX]) as i64;
    let near = random.between(-127, 20) * count + random.pick(&[-1, 0, 1, count / 2]);
    let sum = near.clamp(-127 * count, 20 * count);
    let mean = sum.div_euclid(count) as i8;
    vec![format!("{} {} {}", hex(&sum.to_le_bytes()), hex(&(count as u32).to_le_bytes()), hex(&[mean as u8]))]
}
