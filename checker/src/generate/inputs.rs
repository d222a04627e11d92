//! Inputs for the programs: the bytes of two sheets, valid or damaged, cut anywhere, odd, empty, and
//! around the longest that is read.

use super::machine_pairs;
use super::pairs::{self, Scale};
use crate::format::{COMPARED_BYTES, SHEETS_BYTES};
use crate::program::bytes;
use crate::rng::Rng;

/// An input of any kind for the comparing program: two machines.
pub fn any(rng: &mut Rng) -> Vec<u8> {
    let pair = machine_pairs::any(rng);
    altered(rng, &pair.first, &pair.second, COMPARED_BYTES)
}

/// An input of any kind for the programs that label and show paths: a machine and a rule.
pub fn machine_and_rules(rng: &mut Rng, scale: Scale) -> Vec<u8> {
    let (machine, rules) = pairs::any(rng, scale);
    altered(rng, &machine, &rules, SHEETS_BYTES)
}

/// Two sheets, often as they are.
fn altered(rng: &mut Rng, first: &[u16], second: &[u16], most: usize) -> Vec<u8> {
    let mut input = bytes(first);
    input.extend(bytes(second));
    match rng.below(16) {
        0..=8 => (),
        9 => input.truncate(rng.below(input.len() + 1)),
        10 => input.push(rng.word() as u8),
        11 => input = long(rng, input, most),
        12 => input.truncate(rng.below(12)),
        13 => change_byte(rng, &mut input),
        14 => input.extend([0, 0]),
        _ => input = (0..rng.below(40)).map(|_| rng.word() as u8).collect(),
    }
    input
}

/// Around the longest input: with the sheets at its head, and anything after them.
fn long(rng: &mut Rng, mut input: Vec<u8>, most: usize) -> Vec<u8> {
    let length = *rng.pick(&[most - 2, most - 1, most, most + 1, most + 2, 2 * most]);
    let fill = rng.word() as u8;
    input.resize(length, fill);
    input
}

fn change_byte(rng: &mut Rng, input: &mut [u8]) {
    if !input.is_empty() {
        let place = rng.below(input.len());
        input[place] ^= 1 << rng.below(8);
    }
}

#[cfg(test)]
mod tests {
    use super::*;
    use crate::coverage::Coverage;
    use crate::program::expected_output;

    #[test]
    fn inputs_reach_every_line() {
        let mut coverage = Coverage::new();
        for case in 0..4_000 {
            let input = any(&mut Rng::for_case(81, case));
            coverage.note(expected_output(&input).trim_end());
            coverage.note(match input.len() {
                0 => "empty",
                COMPARED_BYTES => "as long as can be",
                length if length == COMPARED_BYTES + 1 => "one byte too long",
                length if length % 2 == 1 => "odd",
                _ => "even",
            });
        }
        for line in ["equal", "unequal", "refused 0 0"] {
            coverage.require(line, 300);
        }
        for line in [
            "refused 20 0",
            "refused 21 0",
            "refused 2 1",
            "refused 2 2",
            "refused 1 2",
        ] {
            coverage.require(line, 10);
        }
        for length in ["empty", "as long as can be", "one byte too long", "odd"] {
            coverage.require(length, 20);
        }
    }
}
