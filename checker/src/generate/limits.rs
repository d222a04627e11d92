//! The systematic part of the sheets: header grids, cuts, and every word of a small sheet at
//! every limit. On a small sheet these values are also every link and every record number that
//! can be right or just wrong: 0, lower, itself, higher, the last and past it.

use super::machines::{graph, lay_out};
use super::rules::{sheet_for, Wish};
use crate::format::{
    machine_words, rule_words, AUTOMATA, EDGES, LINES, NODES, SIGNALS, STATES, TRANSITIONS,
};
use crate::rng::Rng;
use crate::worked;
use std::ops::RangeInclusive;

/// A sheet lent out of a longer list of words. What stands past its end is not there.
#[derive(Clone, Debug)]
pub struct Lent {
    words: Vec<u16>,
    length: usize,
}

impl Lent {
    /// The sheet alone, in front of words that would go on with it: zeros, which end chains and
    /// fill unused words, or anything.
    pub fn whole(rng: &mut Rng, mut words: Vec<u16>) -> Lent {
        let length = words.len();
        let zeros = rng.chance(1, 2);
        words.extend((0..8).map(|_| if zeros { 0 } else { rng.word() }));
        Lent { words, length }
    }

    /// The first words of a sheet. Its other words stand where they stood.
    pub fn cut(words: Vec<u16>, length: usize) -> Lent {
        Lent { words, length }
    }

    pub fn sheet(&self) -> &[u16] {
        &self.words[..self.length]
    }
}

/// The record numbers of a small sheet, and with them the values around each small limit.
const SMALL: RangeInclusive<usize> = 0..=18;

/// The values around each large limit; transitions and lines have the same one. The last are the highest bit and the largest word.
const LARGE: [usize; 12] = [
    NODES - 1,
    NODES,
    NODES + 1,
    STATES - 1,
    STATES,
    STATES + 1,
    LINES,
    LINES + 1,
    EDGES,
    EDGES + 1,
    1 << (u16::BITS - 1),
    WORD,
];

/// The largest word.
const WORD: usize = u16::MAX as usize;

/// The sheet with one word changed, for each word and each value, and for each bit of the word.
pub fn each_word_at_each_limit(words: &[u16]) -> impl Iterator<Item = Vec<u16>> + '_ {
    (0..words.len()).flat_map(move |place| {
        let turned = (0..u16::BITS).map(move |bit| words[place] ^ 1 << bit);
        let values = SMALL.chain(LARGE).map(|value| value as u16);
        values.chain(turned).map(move |value| {
            let mut changed = words.to_vec();
            changed[place] = value;
            changed
        })
    })
}

/// The lengths 0 to 10, and those around the sheet's own.
pub fn cuts(words: &[u16]) -> Vec<Lent> {
    let own = words.len();
    let near = own.saturating_sub(7)..own + 7;
    let mut longer = words.to_vec();
    longer.extend([0; 10]);
    let lengths = (0..=10).chain(near);
    lengths
        .map(|length| Lent::cut(longer.clone(), length))
        .collect()
}

/// Words for a header with the length that it asks for, where the counts are not out of all
/// bounds; the words are zeros and ones, which are wrong or right by turns.
fn filled(header: &[u16], asked: usize, extra: isize, fill: u16) -> Option<Vec<u16>> {
    let length = asked.checked_add_signed(extra)?;
    if length < header.len() || asked > 30_000 {
        return None;
    }
    let mut words = header.to_vec();
    words.resize(length, fill);
    Some(words)
}

/// Machine headers with each count at and past its bounds, under the length that the header asks
/// for, one word less and one more, and of the header alone.
pub fn machine_headers() -> Vec<Vec<u16>> {
    let mut sheets = Vec::new();
    for n in [0, 1, 2, NODES - 1, NODES, NODES + 1, WORD] {
        for a in [0, 1, SIGNALS - 1, SIGNALS, SIGNALS + 1, WORD] {
            for e in [0, 1, 2, EDGES - 1, EDGES, EDGES + 1, WORD] {
                let header = [n, a, e].map(|count| count as u16);
                let asked = machine_words(n, e);
                for extra in [0, -1, 1] {
                    sheets.extend(filled(&header, asked, extra, 1));
                    sheets.extend(filled(&header, asked, extra, 0));
                }
                sheets.push(header.to_vec());
            }
        }
    }
    sheets
}

/// Rule headers, likewise.
pub fn rule_headers() -> Vec<Vec<u16>> {
    let mut sheets = Vec::new();
    for k in [0, 1, AUTOMATA, AUTOMATA + 1, WORD] {
        for m in [0, 1, STATES, STATES + 1, WORD] {
            for e in [0, 1, TRANSITIONS, TRANSITIONS + 1, WORD] {
                for l in [0, 1, LINES, LINES + 1, WORD] {
                    let header = [k, m, e, l].map(|count| count as u16);
                    let asked = rule_words(k, m, e, l);
                    for extra in [0, -1, 1] {
                        sheets.extend(filled(&header, asked, extra, 1));
                    }
                    sheets.extend(filled(&header, asked, 0, 0));
                    sheets.push(header.to_vec());
                }
            }
        }
    }
    sheets
}

/// Small machine sheets: the worked ones and random ones.
pub fn small_machines(rng: &mut Rng, count: usize) -> Vec<Vec<u16>> {
    let mut sheets = vec![
        worked::m1(),
        worked::m2(),
        worked::m3(),
        worked::m5(),
        worked::m6(),
    ];
    for _ in 0..count {
        let (nodes, signals) = (rng.between(1, 4), *rng.pick(&[1, 2, SIGNALS - 1, SIGNALS]));
        let graph = graph(rng, nodes, signals);
        sheets.push(lay_out(rng, &graph).words());
    }
    sheets.retain(|words| words.len() < 100);
    sheets
}

/// Small rule sheets: the worked ones and random ones.
pub fn small_rules(rng: &mut Rng, count: usize) -> Vec<Vec<u16>> {
    let mut sheets = vec![
        worked::signal_alone(),
        worked::even(),
        worked::constant(0),
        worked::constant(1),
        worked::mixed(),
        worked::incomplete(),
        worked::next_of_signal(),
    ];
    for _ in 0..count {
        let wish = Wish {
            signals: SIGNALS,
            automata: rng.between(0, 3),
            chain: rng.between(1, 4),
            lines: rng.between(1, 5),
        };
        sheets.push(sheet_for(rng, wish).words());
    }
    sheets.retain(|words| words.len() < 160);
    sheets
}

#[cfg(test)]
mod tests {
    use super::*;
    use crate::{machine, rules};

    #[test]
    fn headers_at_their_bounds_pass_the_first_question() {
        let machines = machine_headers();
        let largest = [NODES, SIGNALS, EDGES].map(|count| count as u16);
        assert!(machines.iter().any(|words| words.starts_with(&largest)
            && machine::refusal(words).is_some_and(|number| number > 2)));
        let rules = rule_headers();
        let largest = [AUTOMATA, STATES, TRANSITIONS, LINES].map(|count| count as u16);
        assert!(rules.iter().any(|words| words.starts_with(&largest)
            && rules::refusal(words).is_some_and(|number| number > 8)));
    }

    #[test]
    fn a_cut_sheet_ends_where_it_is_cut() {
        let words = worked::m1();
        let lengths: Vec<usize> = cuts(&words).iter().map(|lent| lent.sheet().len()).collect();
        assert_eq!(lengths[..11], [0, 1, 2, 3, 4, 5, 6, 7, 8, 9, 10]);
        assert!(cuts(&words).iter().any(|lent| lent.sheet() == words));
    }
}
