//! What the program writes (document 01, "A session in full"): the answer lines, one event a line, then
//! the image's lines, then, if replay stopped, the refusal number; a refused image gives only `10`.

use crate::edition;
use crate::engine::{Engine, Replayed};
use crate::event;
use crate::limits::IMAGE;
use crate::lines;
use crate::refusal::Refusal;

/// Restore the image, give the additions, replay the journal, save. An addition is a line in the form of an A4 line
/// (document 02, T-12); one that is refused stops all, and so does a line that is none, with 4. As in a journal a final
/// piece without LF is not read.
pub fn output(engine: &mut dyn Engine, image: &[u8], journal: &[u8], additions: &[u8]) -> Vec<u8> {
    if engine.restore(image).is_err() {
        return number_line(Refusal::NotAnImage);
    }
    let replayed = match add(engine, additions) {
        Ok(()) => engine.replay(journal),
        Err(refusal) => Replayed { answers: Vec::new(), refusal: Some(refusal) },
    };
    let mut text = Vec::new();
    for answer in &replayed.answers {
        for event in event::split(answer) {
            text.extend(lines::write(event));
        }
    }
    let mut out = vec![0; IMAGE];
    let length = engine.save(&mut out).expect("a restored state is sound, and replay keeps it so");
    text.extend(&out[..length]);
    if let Some(refusal) = replayed.refusal {
        text.extend(number_line(refusal));
    }
    text
}

/// The events of each executed frame on a line, blanks between them, then the refusal that stopped the journal or a dash.
pub fn answers(engine: &mut dyn Engine, image: &[u8], journal: &[u8]) -> Vec<u8> {
    if engine.restore(image).is_err() {
        return number_line(Refusal::NotAnImage);
    }
    let replayed = engine.replay(journal);
    let mut text = Vec::new();
    for answer in &replayed.answers {
        let events: Vec<String> = event::split(answer).into_iter().map(|event| event.iter().map(|x| format!("{x:02X}")).collect()).collect();
        text.extend(events.join(" ").into_bytes());
        text.push(b'\n');
    }
    text.extend(replayed.refusal.map_or(b"-\n".to_vec(), number_line));
    text
}

fn add(engine: &mut dyn Engine, additions: &[u8]) -> Result<(), Refusal> {
    for line in lines::split(additions) {
        let (from, prefix) = edition::addition(line).ok_or(Refusal::NotALine)?;
        engine.add_edition(from, &prefix)?;
    }
    Ok(())
}

fn number_line(refusal: Refusal) -> Vec<u8> {
    format!("{}\n", refusal.number()).into_bytes()
}
