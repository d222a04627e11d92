//! Texts of decimal words, right and wrong: every blank, comments with anything in them, leading
//! zeros, numbers around the largest, stray bytes, and counts of words around the most.

use crate::format::SHEETS_WORDS;
use crate::rng::Rng;

/// A text of any kind.
pub fn any(rng: &mut Rng) -> Vec<u8> {
    match rng.below(16) {
        0 => soup(rng),
        1 => noise(rng),
        2 => many(rng),
        _ => {
            let count = rng.between(0, 60);
            let faults = *rng.pick(&[0, 0, 1, 6]);
            numbers(rng, count, faults)
        }
    }
}

/// So many numbers, with a fault in about `faults` of 200 places.
fn numbers(rng: &mut Rng, count: usize, faults: usize) -> Vec<u8> {
    let mut text = Vec::new();
    gap(rng, &mut text, 0);
    for _ in 0..count {
        let number = if rng.chance(faults, 200) {
            65_536 + rng.below(1_000_000)
        } else {
            *rng.pick(&[0, 1, 9, 10, 255, 256, 65_535, 7_001])
        };
        text.extend(vec![b'0'; rng.below(3) * rng.below(4)]);
        text.extend(number.to_string().bytes());
        if rng.chance(faults, 200) {
            text.push(rng.word() as u8);
        }
        gap(rng, &mut text, 1);
    }
    text
}

/// At least so many blanks and comments.
fn gap(rng: &mut Rng, text: &mut Vec<u8>, least: usize) {
    for _ in 0..least + rng.below(2) * rng.below(3) {
        match rng.below(8) {
            0 => {
                text.push(b'#');
                text.extend((0..rng.below(20)).map(|_| match rng.word() as u8 {
                    b'\n' => b' ',
                    byte => byte,
                }));
                text.push(b'\n');
            }
            1 => text.extend(b"\r\n"),
            2 => text.push(b'\n'),
            3 => text.push(b'\t'),
            _ => text.push(b' '),
        }
    }
}

/// Bytes that matter, in any order.
fn soup(rng: &mut Rng) -> Vec<u8> {
    (0..rng.below(60))
        .map(|_| *rng.pick(b"0123456789  \n#\t\rx"))
        .collect()
}

fn noise(rng: &mut Rng) -> Vec<u8> {
    (0..rng.below(60)).map(|_| rng.word() as u8).collect()
}

/// About as many words as there is room for.
fn many(rng: &mut Rng) -> Vec<u8> {
    let count = rng.between(SHEETS_WORDS - 1, SHEETS_WORDS + 1);
    let mut text = Vec::new();
    for _ in 0..count {
        text.extend(rng.below(100).to_string().bytes());
        text.push(*rng.pick(b" \n"));
    }
    text
}

#[cfg(test)]
mod tests {
    use super::*;
    use crate::coverage::Coverage;
    use crate::text::reading;

    #[test]
    fn texts_reach_every_answer() {
        let mut coverage = Coverage::new();
        for case in 0..4_000 {
            let text = any(&mut Rng::for_case(91, case));
            coverage.note(&match reading(&text, SHEETS_WORDS) {
                Ok(words) if words.is_empty() => "no words".to_string(),
                Ok(words) if words.len() == SHEETS_WORDS => "as many as can be".to_string(),
                Ok(_) => "words".to_string(),
                Err(fault) => format!("{:?}", fault.kind),
            });
        }
        for answer in ["words", "NotDecimal", "Above"] {
            coverage.require(answer, 200);
        }
        for answer in ["no words", "as many as can be", "NoRoom"] {
            coverage.require(answer, 40);
        }
    }
}
