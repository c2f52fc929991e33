//! Makes the texts of the program restore_run (stdin) and the answers that it must give (stdout), by the independent
//! implementation in reference/: `vectors DIR` writes both into DIR. Build it as a program that depends on that crate.

use reference::engine::Engine;
use reference::generate::{states, texts};
use reference::random::Random;
use reference::timers::Timers;
use reference::{block, image, lines};
use std::{env, fs, path::Path};

fn mix(d: u64, x: u64) -> u64 {
    ((d % 1000003) * 31 + x % 1000003 + 1) % 1000003
}

fn digest(octets: &[u8]) -> u64 {
    octets.iter().fold(0, |d, &o| mix(d, o as u64))
}

/// The whole block of a restored state.
fn whole(engine: &Timers) -> Vec<u8> {
    block::of(&engine.state()).expect("the block of a restored state").to_vec()
}

/// 0 where a text is refused, else a digest of the block and of its text.
fn answer(text: &[u8]) -> u64 {
    let mut engine = Timers::default();
    match engine.restore(text) {
        Ok(()) => 1 + mix(digest(&whole(&engine)), digest(&image::text(&engine.state()))),
        Err(_) => 0,
    }
}

fn all(texts: impl Iterator<Item = Vec<u8>>) -> u64 {
    texts.fold(0, |d, text| mix(d, answer(&text)))
}

fn put(text: &[u8], at: usize, characters: &[u8]) -> Vec<u8> {
    let mut other = text.to_vec();
    other[at..at + characters.len()].copy_from_slice(characters);
    other
}

fn characters(text: &[u8]) -> u64 {
    all((0..text.len()).flat_map(|p| (0..=255u8).map(move |v| put(text, p, &[v]))))
}

fn octets(text: &[u8]) -> u64 {
    all((1..text.len()).flat_map(|p| (0..=255u8).map(move |v| put(text, p - 1, format!("{v:02X}").as_bytes()))))
}

fn two(text: &[u8]) -> u64 {
    all((0..text.len()).flat_map(|p| [48 + (text[p] % 8 + 7) % 8, 10].map(|v| put(text, p, &[v]))))
}

fn cuts(text: &[u8]) -> u64 {
    all((0..text.len()).map(|n| text[..n].to_vec()))
}

/// Lines dropped, doubled, swapped, each with the next; lower case.
fn arranged(text: &[u8]) -> Vec<Vec<u8>> {
    let parts: Vec<&[u8]> = lines::split(text).collect();
    let mut found = vec![text.to_ascii_lowercase()];
    for i in 0..parts.len() {
        let mut other = parts.clone();
        other.remove(i);
        found.push(other.concat());
        let mut other = parts.clone();
        other.insert(i, parts[i]);
        found.push(other.concat());
        if i + 1 < parts.len() {
            let mut other = parts.clone();
            other.swap(i, i + 1);
            found.push(other.concat());
        }
    }
    found
}

fn main() {
    let folder = env::args().nth(1).expect("vectors DIR");
    let fresh = b"A000000000001EFC024D53\nA400000000024D53\nAF0000\n".to_vec();
    let session = b"A002000000001EFC024D53\nA400000000024D53\nA100C4B00300040700060504030201\n\
        A30000060504030201000000000000000000000000000000C40000\nAF0101\n"
        .to_vec();
    let window = b"A003000000011EFC024D53\nA4000000000100\nA402000000024D53\nA404000000034D5354\nA100C4B00302040700060504030201\nA10FC4B03CFE0203011218\n\
        A3000006050403020101000102000000C4FFFFFFFFFFFFFFC40302AABB\nAF0201\n"
        .to_vec();
    // Version 2 (document 02, T-13): an A5 line among A1 lines, and the packet that its pair keeps.
    let second = b"A004000000011EFC024D53\nA400000000024D53\nA100C4B00300040700060504030201\n\
        A502C4B0030001050103090041E1F30605040302010109090909090909090909090909090909\n\
        A10FC4B03CFE0203011218\nA30200060504030201000000000000000000000000000000C40303020941\nAF0301\n"
        .to_vec();
    let largest = image::text(&states::largest(&mut Random::new(1)));
    let mut rows: Vec<(u8, Vec<u8>)> = vec![(b'S', fresh), (b'S', session.clone()), (b'S', window.clone())];
    rows.push((b'S', second.clone()));
    rows.push((b'L', largest.clone()));
    rows.push((b'T', [&largest[..], b"\n"].concat()));
    for text in [&session, &window, &second] {
        rows.extend(arranged(text).into_iter().map(|t| (b'T', t)));
    }
    let mut index = 0;
    let mut size = rows.iter().map(|r| r.1.len() + 2).sum::<usize>();
    while size < 60000 {
        let mut random = Random::of(9, index);
        index += 1;
        let devices = states::devices(&mut random);
        let state = states::sound(&mut random, &devices);
        let text = image::text(&state);
        if text.len() > 1500 {
            continue;
        }
        let broken = states::broken(&mut random, &state, index as usize % states::WAYS).map(|s| image::text(&s));
        let damaged = texts::damage(&mut random, &text);
        for t in [Some(text), broken, Some(damaged)].into_iter().flatten() {
            if !t.contains(&b'=') && t.len() < 3000 {
                size += t.len() + 2;
                rows.push((b'T', t));
            }
        }
    }
    let (mut given, mut expected) = (Vec::new(), String::new());
    for (mode, text) in rows {
        given.push(mode);
        given.extend(&text);
        given.push(b'=');
        let mut numbers = vec![answer(&text)];
        match mode {
            b'S' => numbers.extend([characters(&text), octets(&text), cuts(&text)]),
            b'L' => numbers.extend([two(&text), cuts(&text)]),
            _ => (),
        }
        numbers.iter().for_each(|n| expected += &format!("{n}\n"));
    }
    fs::write(Path::new(&folder).join("stdin"), given).unwrap();
    fs::write(Path::new(&folder).join("stdout"), expected).unwrap();
}
