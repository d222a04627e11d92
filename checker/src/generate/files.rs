//! Pairs of files for `compare.sh`, as texts and as bytes: sheets cut at every byte, with bytes of the one file in the other, with
//! trailing bytes, empty, and around the longest that is read.

use super::machine_pairs;
use crate::format::{SHEETS_BYTES, TEXT_BYTES};
use crate::program::bytes;
use crate::rng::Rng;
use crate::text::text;

/// What is in a file, and whether it is a text.
#[derive(Clone, Debug, PartialEq, Eq)]
pub struct Content {
    pub text: bool,
    pub bytes: Vec<u8>,
}

impl Content {
    pub fn of(words: &[u16], is_text: bool) -> Content {
        let bytes = match is_text {
            true => text(words).into_bytes(),
            false => bytes(words),
        };
        Content {
            text: is_text,
            bytes,
        }
    }
}

/// What is in two files.
pub type Pair = [Content; 2];

/// Two sheets, cut at every byte: one of the files alone, then the bytes of both, which makes two files that are the same bytes once
/// they are joined.
pub fn cut_at_every_byte(sheets: [&[u16]; 2], text: bool) -> Vec<Pair> {
    let whole = sheets.map(|words| Content::of(words, text));
    let mut pairs = Vec::new();
    for file in [0, 1] {
        for length in 0..whole[file].bytes.len() {
            let mut cut = whole.clone();
            cut[file].bytes.truncate(length);
            pairs.push(cut);
        }
    }
    let joined = [&whole[0].bytes[..], &whole[1].bytes[..]].concat();
    for end in 0..=joined.len() {
        let (first, second) = joined.split_at(end);
        pairs.push([first, second].map(|part| Content {
            text,
            bytes: part.to_vec(),
        }));
    }
    pairs
}

/// Two sheets, one of them with bytes after its end.
pub fn with_trailing_bytes(sheets: [&[u16]; 2]) -> Vec<Pair> {
    let bytes: [&[u8]; 5] = [&[0], &[1], &[0, 0], &[1, 0], &[0, 0, 0]];
    let texts: [&[u8]; 7] = [b" ", b"\n\n", b" 0", b"x", b" x", b"#", b"# 0\n0"];
    let mut pairs = Vec::new();
    for (text, tails) in [(false, &bytes[..]), (true, &texts[..])] {
        for tail in tails {
            for file in [0, 1] {
                let mut pair = sheets.map(|words| Content::of(words, text));
                pair[file].bytes.extend(*tail);
                pairs.push(pair);
            }
        }
    }
    pairs
}

/// A sheet beside an empty file, two empty files, and files around the longest that are read.
pub fn empty_and_long(sheet: &[u16]) -> Vec<Pair> {
    let most = SHEETS_BYTES;
    let mut others = vec![Content::of(&[], false), Content::of(&[], true)];
    for length in [most - 1, most, most + 1, most + 2] {
        others.push(Content {
            text: false,
            bytes: vec![1; length],
        });
    }
    for length in [TEXT_BYTES, TEXT_BYTES + 1] {
        let mut long = Content::of(sheet, true);
        long.bytes.resize(length, b' ');
        others.push(long);
    }
    let mut pairs = Vec::new();
    for other in others {
        let sheet = Content::of(sheet, other.text);
        pairs.push([sheet.clone(), other.clone()]);
        pairs.push([other.clone(), sheet]);
        pairs.push([other.clone(), other]);
    }
    pairs
}

/// Two files of any kind: sheets as they are, or damaged.
pub fn any(rng: &mut Rng) -> Pair {
    let machines = machine_pairs::any(rng);
    let words = [machines.first, machines.second];
    let mut pair = words.map(|words| Content::of(&words, rng.chance(1, 3)));
    let file = rng.below(2);
    let length = pair[file].bytes.len();
    match rng.below(10) {
        0 => pair[file].bytes.truncate(rng.below(length + 1)),
        1 => pair[file].bytes.push(rng.word() as u8),
        2 => change(rng, &mut pair[file].bytes),
        3 => pair[file].bytes.clear(),
        4 | 5 => cut_elsewhere(rng, &mut pair),
        _ => (),
    }
    pair
}

fn change(rng: &mut Rng, bytes: &mut [u8]) {
    if !bytes.is_empty() {
        let place = rng.below(bytes.len());
        bytes[place] ^= 1 << rng.below(8);
    }
}

/// The bytes of both files, parted some bytes before or after the end of the first.
fn cut_elsewhere(rng: &mut Rng, [first, second]: &mut Pair) {
    let moved = rng.between(1, 4);
    if rng.chance(1, 2) {
        let moved = moved.min(second.bytes.len());
        first.bytes.extend(second.bytes.drain(..moved));
    } else {
        let from = first.bytes.len().saturating_sub(moved);
        let tail = first.bytes.split_off(from);
        second.bytes.splice(..0, tail);
    }
}

#[cfg(test)]
mod tests {
    use super::*;
    use crate::worked;

    #[test]
    fn a_byte_in_the_other_file_is_among_the_cuts() {
        let (m1, m2) = (worked::m1(), worked::m2());
        let mut pair = [&m1, &m2].map(|words| Content::of(words, false));
        let moved = pair[1].bytes.remove(0);
        pair[0].bytes.push(moved);
        let cuts = cut_at_every_byte([&m1, &m2], false);
        assert!(cuts.contains(&pair));
        assert_eq!(cuts.len(), 16 + 26 + 43);
    }
}
