//! Comparison by partition refinement: a second method beside the greatest fixpoint, and one that
//! writes the rule that tells two machines apart.
//!
//! Blocks are sets of nodes of both machines, each with a line that is true at its nodes alone.
//! They are split by the signals, then by the nodes with some next node in a block, until no
//! block splits another. A block that was split is owed as a splitter again, in both halves.

use crate::compare::{members, set, Both};
use crate::format::line;
use crate::format::operation::{NOT, OR, SIGNAL, SOME_PATH};
use crate::worked::written_head;

#[derive(Clone, Copy, Debug)]
struct Block {
    nodes: u128,
    /// The number of a line that is true at these nodes alone.
    line: u16,
    owed: bool,
}

/// The coarsest partition in which nodes of a block have the same signals and lead to the same
/// blocks, with the lines that describe it.
pub struct Refinement {
    blocks: Vec<Block>,
    lines: Vec<[u16; line::WORDS]>,
}

impl Refinement {
    pub fn of(both: &Both) -> Refinement {
        let mut refinement = Refinement::start(both);
        let predecessors = predecessors(both);
        while let Some(owed) = refinement.blocks.iter().position(|block| block.owed) {
            refinement.blocks[owed].owed = false;
            let splitter = refinement.blocks[owed];
            let before = members(splitter.nodes).fold(0, |row, node| row | predecessors[node]);
            refinement.split_all(before, |lines| {
                push(lines, [SOME_PATH, 1, splitter.line, 0, 0, 0])
            });
        }
        refinement
    }

    /// One block, split by the signals.
    fn start(both: &Both) -> Refinement {
        let signals = both.first.signals as u16;
        let mut lines: Vec<[u16; line::WORDS]> =
            (1..=signals).map(|p| [SIGNAL, p, 0, 0, 0, 0]).collect();
        let not_first = push(&mut lines, [NOT, 1, 0, 0, 0, 0]);
        let always = push(&mut lines, [OR, 1, not_first, 0, 0, 0]);
        let all = Block {
            nodes: set(0..both.nodes()),
            line: always,
            owed: true,
        };
        let mut refinement = Refinement {
            blocks: vec![all],
            lines,
        };
        let labels = both.labels();
        for signal in 1..=signals {
            let holds = |&node: &usize| labels[node] >> (signal - 1) & 1 == 1;
            let row = set((0..labels.len()).filter(holds));
            refinement.split_all(row, |_| signal);
        }
        refinement
    }

    /// Splits each block by a row. Its line is only written once a block is split by it.
    fn split_all(&mut self, row: u128, write: impl Fn(&mut Vec<[u16; line::WORDS]>) -> u16) {
        let mut line = None;
        for index in 0..self.blocks.len() {
            let nodes = self.blocks[index].nodes;
            if nodes & row != 0 && nodes & !row != 0 {
                let line = *line.get_or_insert_with(|| write(&mut self.lines));
                self.split(index, row, line);
            }
        }
    }

    fn split(&mut self, index: usize, row: u128, line: u16) {
        let block = self.blocks[index];
        let not_block = push(&mut self.lines, [NOT, block.line, 0, 0, 0, 0]);
        let not_row = push(&mut self.lines, [NOT, line, 0, 0, 0, 0]);
        self.blocks[index] = Block {
            nodes: block.nodes & row,
            line: nor(&mut self.lines, not_block, not_row),
            owed: true,
        };
        let outside = Block {
            nodes: block.nodes & !row,
            line: nor(&mut self.lines, not_block, line),
            owed: true,
        };
        self.blocks.push(outside);
    }

    /// The nodes of the block that a node is in.
    pub fn block_of(&self, node: usize) -> u128 {
        let mut blocks = self.blocks.iter().map(|block| block.nodes);
        blocks.find(|nodes| nodes >> node & 1 == 1).unwrap_or(0)
    }

    /// The words of a rule that exactly one machine keeps, if there is one: not in a block where
    /// only the other machine starts.
    pub fn telling_apart(&self, both: &Both) -> Option<Vec<u16>> {
        let starts = both.starts();
        let has_both_or_none = |block: &&Block| {
            let [first, second] = starts.map(|starts| starts & block.nodes != 0);
            first == second
        };
        let block = self.blocks.iter().find(|block| !has_both_or_none(block))?;
        let mut lines = self.lines.clone();
        push(&mut lines, [NOT, block.line, 0, 0, 0, 0]);
        let mut words = written_head(lines.len() as u16);
        words.extend(lines.iter().flatten());
        Some(words)
    }
}

/// Adds a line and gives its number.
fn push(lines: &mut Vec<[u16; line::WORDS]>, line: [u16; line::WORDS]) -> u16 {
    lines.push(line);
    lines.len() as u16
}

fn nor(lines: &mut Vec<[u16; line::WORDS]>, one: u16, other: u16) -> u16 {
    let either = push(lines, [OR, one, other, 0, 0, 0]);
    push(lines, [NOT, either, 0, 0, 0, 0])
}

/// For each node the set of nodes that lead to it.
fn predecessors(both: &Both) -> Vec<u128> {
    let mut predecessors = vec![0; both.nodes()];
    for (node, targets) in both.successors().iter().enumerate() {
        for &target in targets {
            predecessors[target] |= 1 << node;
        }
    }
    predecessors
}

#[cfg(test)]
mod tests {
    use super::*;
    use crate::worked;

    #[test]
    fn the_blocks_of_m5_and_m6() {
        let both = Both::read(&worked::m5(), &worked::m6()).expect("a pair to compare");
        let refinement = Refinement::of(&both);
        let mut blocks: Vec<u128> = refinement.blocks.iter().map(|block| block.nodes).collect();
        blocks.sort_unstable();
        let nodes: [&[usize]; 7] = [&[0], &[1], &[2, 7], &[3, 8], &[4], &[5], &[6]];
        let mut expected = nodes.map(|nodes| set(nodes.iter().copied()));
        expected.sort_unstable();
        assert_eq!(blocks, expected);
    }
}
