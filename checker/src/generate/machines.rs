//! Valid machine sheets. A graph is drawn first, in one of several shapes, since a plain random
//! graph is mostly one strong component and tells little apart; then its edges are laid out as
//! records, with shared tails, repeated targets and records on nobody's chain.

use super::chains::Chains;
use super::{size, MachineSheet};
use crate::format::{EDGES, NODES, SIGNALS};
use crate::rng::Rng;

/// A Kripke structure to be laid out. Nodes count from 0; each list of targets has one at least,
/// and may name one twice.
#[derive(Clone, Debug)]
pub struct Graph {
    pub signals: usize,
    pub labels: Vec<u16>,
    pub starts: Vec<bool>,
    pub targets: Vec<Vec<usize>>,
}

impl Graph {
    pub fn nodes(&self) -> usize {
        self.labels.len()
    }
}

/// A valid sheet of any shape and size.
pub fn machine_sheet(rng: &mut Rng) -> MachineSheet {
    let nodes = size(rng, 1, NODES);
    let signals = rng.between(1, SIGNALS);
    let graph = graph(rng, nodes, signals);
    lay_out(rng, &graph)
}

/// A structure of the given size and a random shape.
pub fn graph(rng: &mut Rng, nodes: usize, signals: usize) -> Graph {
    let label_style = *rng.pick(&[0, 0, 0, 1, 1, 2]);
    Graph {
        signals,
        labels: (0..nodes)
            .map(|_| label(rng, signals, label_style))
            .collect(),
        starts: starts(rng, nodes),
        targets: targets(rng, nodes),
    }
}

/// The word with a bit for each of the signals.
pub fn all_signals(signals: usize) -> u16 {
    ((1u32 << signals) - 1) as u16
}

/// Labels are plain random, or mostly alike, so that nodes differ by what they lead to.
fn label(rng: &mut Rng, signals: usize, style: usize) -> u16 {
    let word = rng.word() & all_signals(signals);
    match style {
        0 => word,
        1 => word & 1,
        _ if rng.chance(1, 6) => word,
        _ => all_signals(signals),
    }
}

fn starts(rng: &mut Rng, nodes: usize) -> Vec<bool> {
    let of = rng.between(1, 4);
    let mut starts: Vec<bool> = (0..nodes).map(|_| rng.chance(of, 8)).collect();
    let sure = if rng.chance(1, 4) {
        nodes - 1
    } else {
        rng.below(nodes)
    };
    starts[sure] = true;
    starts
}

/// The targets of all nodes, in one of the shapes.
fn targets(rng: &mut Rng, nodes: usize) -> Vec<Vec<usize>> {
    match rng.below(6) {
        0 => (0..nodes).map(|_| some_of(rng, 0, nodes, 3)).collect(),
        1 => dense(rng, nodes),
        2 => lasso(rng, nodes),
        3 => (0..nodes)
            .map(|node| some_of(rng, node, nodes, 2))
            .collect(),
        4 => layers(rng, nodes),
        _ => suffixes(rng, nodes),
    }
}

/// One to `most` nodes from `low` up, repeats included.
fn some_of(rng: &mut Rng, low: usize, nodes: usize, most: usize) -> Vec<usize> {
    let count = rng.between(1, most);
    (0..count).map(|_| rng.between(low, nodes - 1)).collect()
}

fn dense(rng: &mut Rng, nodes: usize) -> Vec<Vec<usize>> {
    let most = (EDGES / nodes).min(nodes + 2);
    (0..nodes).map(|_| some_of(rng, 0, nodes, most)).collect()
}

/// One long walk that turns back at its end, with a few shortcuts forward.
fn lasso(rng: &mut Rng, nodes: usize) -> Vec<Vec<usize>> {
    let back = rng.below(nodes);
    let shortcut = |rng: &mut Rng, node: usize| rng.between(node + 1, nodes - 1);
    let step = |node: usize| match node + 1 {
        end if end == nodes => vec![back],
        next if rng.chance(1, 8) => vec![next, shortcut(rng, node)],
        next => vec![next],
    };
    (0..nodes).map(step).collect()
}

/// Groups of nodes; an edge stays in its group or leads to the next.
fn layers(rng: &mut Rng, nodes: usize) -> Vec<Vec<usize>> {
    let width = rng.between(1, nodes.min(8));
    let step = |node: usize| {
        let low = node / width * width;
        let high = (low + width).min(nodes);
        let further = (high + width).min(nodes);
        let mut targets = some_of(rng, low, high, 2);
        if rng.chance(1, 3) {
            targets.push(rng.between(low, further - 1));
        }
        targets
    };
    (0..nodes).map(step).collect()
}

/// Every node's targets are a tail of one list: few records, many edges of the relation.
fn suffixes(rng: &mut Rng, nodes: usize) -> Vec<Vec<usize>> {
    let mut list: Vec<usize> = (0..nodes).collect();
    rng.shuffle(&mut list);
    (0..nodes)
        .map(|_| list[rng.below(nodes)..].to_vec())
        .collect()
}

/// Lays a structure out as records. It needs at most as many edge records as the sheet can hold;
/// lists that share their tails need the fewest.
pub fn lay_out(rng: &mut Rng, graph: &Graph) -> MachineSheet {
    let total: usize = graph.targets.iter().map(Vec::len).sum();
    let shared = total > EDGES || rng.chance(1, 2);
    let mut chains = Chains::new();
    let firsts: Vec<usize> = graph
        .targets
        .iter()
        .filter_map(|targets| chains.add_chain(targets, shared))
        .collect();
    add_strays(rng, &mut chains, graph.nodes());
    let numbers = chains.number(rng);
    let edge = |&place: &usize| {
        [
            chains.content(place) as u16 + 1,
            chains.link(&numbers, place),
        ]
    };
    MachineSheet {
        header: [graph.nodes(), graph.signals, chains.len()].map(|word| word as u16),
        nodes: (0..graph.nodes())
            .map(|node| {
                let start = u16::from(graph.starts[node]);
                [graph.labels[node], start, numbers.of(firsts[node])]
            })
            .collect(),
        edges: numbers.in_order().iter().map(edge).collect(),
    }
}

fn add_strays(rng: &mut Rng, chains: &mut Chains<usize>, nodes: usize) {
    let room = EDGES - chains.len();
    let strays = match rng.below(12) {
        0 => room.min(rng.between(1, 4)),
        1 if rng.chance(1, 8) => room,
        _ => 0,
    };
    for _ in 0..strays {
        let target = rng.below(nodes);
        chains.add_stray(rng, target);
    }
}

#[cfg(test)]
mod tests {
    use super::*;
    use crate::machine::{refusal, Machine};

    fn sorted(targets: &[usize]) -> Vec<usize> {
        let mut targets = targets.to_vec();
        targets.sort_unstable();
        targets.dedup();
        targets
    }

    #[test]
    fn sheets_are_accepted_and_describe_their_graph() {
        let mut largest = 0;
        for case in 0..4_000 {
            let mut rng = Rng::for_case(11, case);
            let nodes = size(&mut rng, 1, NODES);
            let signals = rng.between(1, SIGNALS);
            let graph = graph(&mut rng, nodes, signals);
            let words = lay_out(&mut rng, &graph).words();
            assert_eq!(refusal(&words), None, "case {case}");
            let machine = Machine::read(&words).expect("an accepted sheet");
            let wanted: Vec<Vec<usize>> = graph.targets.iter().map(|t| sorted(t)).collect();
            assert_eq!(machine.successors, wanted, "case {case}");
            assert_eq!(machine.labels, graph.labels, "case {case}");
            assert_eq!(machine.starts, graph.starts, "case {case}");
            largest = largest.max(nodes);
        }
        assert_eq!(largest, NODES);
    }
}
