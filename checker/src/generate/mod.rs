//! Generators of sheets. A sheet is built as records, so that a damage can name the record it
//! strikes, and is turned into words at the end.
//!
//! - `chains`: linked records with shared tails, and numbers under which links lead upward.
//! - `machines`, `rules`: valid sheets of every shape and size.
//! - `damage`: faults for each question, at each limit.
//! - `limits`: the systematic part: every word of small sheets at every limit, header grids, cuts.
//! - `pairs`: a machine and a rule, and the spaces that labelling and path write to.
//! - `machine_pairs`: two machines to compare, and the space for the rule.
//! - `inputs`: bytes for the programs.
//! - `files`: pairs of files for `compare.sh`.
//! - `texts`: texts of decimal words for the program `sheet`.

pub mod chains;
pub mod damage;
pub mod files;
pub mod inputs;
pub mod limits;
pub mod machine_pairs;
pub mod machines;
pub mod pairs;
pub mod rules;
pub mod texts;

use crate::format::{automaton, edge, line, machine_header, node, rule_header, state, transition};
use crate::rng::Rng;

/// The records of a machine sheet. The header is kept apart, so that it can be wrong.
#[derive(Clone, Debug, PartialEq, Eq)]
pub struct MachineSheet {
    pub header: [u16; machine_header::WORDS],
    pub nodes: Vec<[u16; node::WORDS]>,
    pub edges: Vec<[u16; edge::WORDS]>,
}

impl MachineSheet {
    pub fn words(&self) -> Vec<u16> {
        let mut words = self.header.to_vec();
        words.extend(self.nodes.iter().flatten());
        words.extend(self.edges.iter().flatten());
        words
    }
}

/// The records of a rule sheet. The header is kept apart, so that it can be wrong.
#[derive(Clone, Debug, PartialEq, Eq)]
pub struct RuleSheet {
    pub header: [u16; rule_header::WORDS],
    pub automata: Vec<[u16; automaton::WORDS]>,
    pub states: Vec<[u16; state::WORDS]>,
    pub edges: Vec<[u16; transition::WORDS]>,
    pub lines: Vec<[u16; line::WORDS]>,
}

impl RuleSheet {
    pub fn words(&self) -> Vec<u16> {
        let mut words = self.header.to_vec();
        words.extend(self.automata.iter().flatten());
        words.extend(self.states.iter().flatten());
        words.extend(self.edges.iter().flatten());
        words.extend(self.lines.iter().flatten());
        words
    }

    /// The places, from 0, of the states on an automaton's chain. The sheet's links lead upward.
    pub fn chain_of(&self, automaton: usize) -> Vec<usize> {
        let first = place(self.automata[automaton][automaton::FIRST_STATE]);
        std::iter::successors(first, |&state| place(self.states[state][state::NEXT])).collect()
    }

    /// The places, from 0, of the edges on a state's chain. The sheet's links lead upward.
    pub fn edges_out_of(&self, state: usize) -> Vec<usize> {
        let first = place(self.states[state][state::FIRST_TRANSITION]);
        std::iter::successors(first, |&edge| place(self.edges[edge][transition::NEXT])).collect()
    }
}

/// The place of a record by its number, `None` for 0.
fn place(number: u16) -> Option<usize> {
    usize::from(number).checked_sub(1)
}

/// A space that is lent out of a longer one, so that writing past it shows.
#[derive(Clone, Debug)]
pub struct Guarded<T> {
    items: Vec<T>,
    length: usize,
    outside: Vec<T>,
}

impl<T: Copy + PartialEq + Default> Guarded<T> {
    pub fn new(mut items: Vec<T>) -> Guarded<T> {
        let length = items.len();
        items.extend([T::default(); 4]);
        if length > 0 {
            items[length + 1] = items[length - 1];
        }
        let outside = items[length..].to_vec();
        Guarded {
            items,
            length,
            outside,
        }
    }

    pub fn part(&self) -> &[T] {
        &self.items[..self.length]
    }

    pub fn part_mut(&mut self) -> &mut [T] {
        &mut self.items[..self.length]
    }

    pub fn is_kept_outside(&self) -> bool {
        self.items[self.length..] == self.outside
    }
}

/// A size between two limits: often small, at times one of the limits, at times anything between.
pub fn size(rng: &mut Rng, low: usize, high: usize) -> usize {
    let small = high.min(low + 5);
    match rng.below(40) {
        0 => high,
        1 => rng.between(low, high),
        2..=5 => low,
        _ => rng.between(low, small),
    }
}
