//! Pairs of machine sheets to compare: bisimilar copies with nodes doubled, shuffled and
//! unreachable ones added; machines that differ many steps down, in the branching alone, or in
//! their starts; and sheets that are refused. With them a space for the rule, never clean.

use super::damage::{any_word, MACHINE_FAULTS};
use super::machines::{all_signals, graph, lay_out, Graph};
use crate::format::{machine_header, rule_space, BOTH_NODES, EDGES, NODES, SIGNALS};
use crate::rng::Rng;

/// Words of two machine sheets, and the space that is lent for the rule.
#[derive(Clone, Debug)]
pub struct MachinePair {
    pub first: Vec<u16>,
    pub second: Vec<u16>,
    pub space: Vec<u16>,
}

/// How the two machines come about.
#[derive(Clone, Copy, Debug, PartialEq, Eq)]
pub enum Kind {
    /// Two copies of one machine, laid out apart. They are equal.
    Bisimilar,
    /// Two copies, one of them with a change far from its starts.
    FarChange,
    /// Two long chains that differ at their ends, if at all.
    Chains,
    /// Two copies, one of them with a choice that is made a step earlier: the same paths.
    EarlierChoice,
    /// Two copies with starts of their own.
    OtherStarts,
    /// Two machines that have nothing to do with each other but the number of signals.
    Apart,
    /// A sheet beside itself.
    Itself,
    /// Sheets with a fault, with other signals, or with too many nodes.
    Refused,
}

pub const KINDS: [Kind; 8] = [
    Kind::Bisimilar,
    Kind::FarChange,
    Kind::Chains,
    Kind::EarlierChoice,
    Kind::OtherStarts,
    Kind::Apart,
    Kind::Itself,
    Kind::Refused,
];

pub fn any(rng: &mut Rng) -> MachinePair {
    let kind = *rng.pick(&KINDS);
    of_kind(rng, kind)
}

pub fn of_kind(rng: &mut Rng, kind: Kind) -> MachinePair {
    let (first, second) = match kind {
        Kind::Refused => refused(rng),
        Kind::Itself => {
            let nodes = small_or(rng, BOTH_NODES / 2);
            let signals = signals(rng);
            let sheet = sheet(rng, nodes, signals);
            (sheet.clone(), sheet)
        }
        _ => loop {
            let (first, second) = graphs(rng, kind);
            if fits(&first) && fits(&second) {
                break (lay_out(rng, &first).words(), lay_out(rng, &second).words());
            }
        },
    };
    let space = space(rng, &first, &second);
    MachinePair {
        first,
        second,
        space,
    }
}

fn fits(graph: &Graph) -> bool {
    graph.targets.iter().map(Vec::len).sum::<usize>() <= EDGES
}

fn signals(rng: &mut Rng) -> usize {
    if rng.chance(1, 2) {
        rng.between(1, 3)
    } else {
        rng.between(1, SIGNALS)
    }
}

/// Mostly a small number of nodes, at times any up to the most.
fn small_or(rng: &mut Rng, most: usize) -> usize {
    match rng.below(24) {
        0 => most,
        1 => rng.between(1, most),
        _ => rng.between(1, most.min(7)),
    }
}

/// The nodes of both machines: at times all there can be, as 64 + 64, 1 + 127 and 127 + 1.
fn sizes(rng: &mut Rng) -> (usize, usize) {
    match rng.below(60) {
        0 => (BOTH_NODES / 2, BOTH_NODES / 2),
        1 => (1, BOTH_NODES - 1),
        2 => (BOTH_NODES - 1, 1),
        3 => {
            let first = rng.between(1, BOTH_NODES - 1);
            (first, rng.between(1, BOTH_NODES - first))
        }
        _ => (rng.between(1, 9), rng.between(1, 9)),
    }
}

fn graphs(rng: &mut Rng, kind: Kind) -> (Graph, Graph) {
    let (first, second) = sizes(rng);
    let signals = signals(rng);
    if kind == Kind::Apart {
        return (graph(rng, first, signals), graph(rng, second, signals));
    }
    if kind == Kind::Chains {
        return chains(rng, first, second, signals);
    }
    let most = first.min(second);
    let nodes = rng.between(most.div_ceil(2), most);
    let mut base = graph(rng, nodes, signals);
    let one = copy(rng, &base, first);
    match kind {
        Kind::FarChange => change_far(rng, &mut base),
        Kind::EarlierChoice => {
            for _ in nodes..second.min(nodes + 3) {
                choose_earlier(rng, &mut base);
            }
        }
        Kind::OtherStarts => change_starts(rng, &mut base),
        _ => (),
    }
    let other = copy(rng, &base, second);
    match rng.chance(1, 2) {
        true => (one, other),
        false => (other, one),
    }
}

/// A machine with the given number of nodes, or with as many as the graph if that is more, that
/// keeps the same rules: every node at least once, others doubled or unreachable, all shuffled.
fn copy(rng: &mut Rng, graph: &Graph, nodes: usize) -> Graph {
    let origins = origins(rng, graph.nodes(), nodes.max(graph.nodes()));
    let mut copies = vec![Vec::new(); graph.nodes()];
    for (node, origin) in origins.iter().enumerate() {
        if let Some(origin) = *origin {
            copies[origin].push(node);
        }
    }
    Graph {
        signals: graph.signals,
        labels: origins
            .iter()
            .map(|origin| match *origin {
                Some(origin) => graph.labels[origin],
                None => rng.word() & all_signals(graph.signals),
            })
            .collect(),
        starts: copied_starts(rng, graph, &copies, origins.len()),
        targets: origins
            .iter()
            .map(|origin| match *origin {
                Some(origin) => copied_targets(rng, &graph.targets[origin], &copies),
                None => vec![rng.below(origins.len()), rng.below(origins.len())],
            })
            .collect(),
    }
}

/// Whose copy each of the nodes is; unreachable nodes are nobody's.
fn origins(rng: &mut Rng, graph_nodes: usize, nodes: usize) -> Vec<Option<usize>> {
    let unreachable = match rng.chance(1, 3) {
        true => rng.between(0, nodes - graph_nodes),
        false => 0,
    };
    let mut origins: Vec<Option<usize>> = (0..graph_nodes).map(Some).collect();
    while origins.len() < nodes - unreachable {
        origins.push(Some(rng.below(graph_nodes)));
    }
    origins.resize(nodes, None);
    rng.shuffle(&mut origins);
    origins
}

fn copied_starts(rng: &mut Rng, graph: &Graph, copies: &[Vec<usize>], nodes: usize) -> Vec<bool> {
    let mut starts = vec![false; nodes];
    for (copies, _) in copies.iter().zip(&graph.starts).filter(|(_, &start)| start) {
        for node in some_of(rng, copies) {
            starts[node] = true;
        }
    }
    starts
}

/// Some of the items, one at least, in any order.
fn some_of(rng: &mut Rng, items: &[usize]) -> Vec<usize> {
    let mut some = items.to_vec();
    rng.shuffle(&mut some);
    some.truncate(rng.between(1, items.len().min(3)));
    some
}

fn copied_targets(rng: &mut Rng, targets: &[usize], copies: &[Vec<usize>]) -> Vec<usize> {
    let mut all = Vec::new();
    for &target in targets {
        all.append(&mut some_of(rng, &copies[target]));
    }
    all
}

/// How many steps each node is from the starts; unreachable nodes count as far.
fn distances(graph: &Graph) -> Vec<usize> {
    let nodes = graph.nodes();
    let mut distance: Vec<usize> = graph
        .starts
        .iter()
        .map(|&start| if start { 0 } else { nodes })
        .collect();
    for _ in 0..nodes {
        for node in 0..nodes {
            for &target in &graph.targets[node] {
                distance[target] = distance[target].min(distance[node] + 1);
            }
        }
    }
    distance
}

/// Changes a signal or an edge of a node as far from the starts as can be reached.
fn change_far(rng: &mut Rng, graph: &mut Graph) {
    let distances = distances(graph);
    let nodes = graph.nodes();
    let reached = (0..nodes).filter(|&node| distances[node] < nodes);
    let Some(node) = reached.max_by_key(|&node| distances[node]) else {
        return;
    };
    match rng.below(3) {
        0 => graph.labels[node] ^= 1 << rng.below(graph.signals),
        1 => graph.targets[node][0] = rng.below(nodes),
        _ => graph.targets[node].push(rng.below(nodes)),
    }
}

/// Replaces a node with a choice by two without it, and lets those who led to it choose. The
/// paths, as what is seen along them, stay the same.
fn choose_earlier(rng: &mut Rng, graph: &mut Graph) {
    let distances = distances(graph);
    let choosing: Vec<usize> = (0..graph.nodes())
        .filter(|&node| distances[node] < graph.nodes() && graph.targets[node].len() > 1)
        .collect();
    if choosing.is_empty() {
        return;
    }
    let node = *rng.pick(&choosing);
    let added = graph.nodes();
    graph.labels.push(graph.labels[node]);
    graph.starts.push(graph.starts[node]);
    graph.targets.push(graph.targets[node].clone());
    for targets in &mut graph.targets {
        if targets.contains(&node) {
            targets.push(added);
        }
    }
    let all = graph.targets[node].clone();
    let part = rng.between(1, all.len() - 1);
    graph.targets[node] = all[..part].to_vec();
    graph.targets[added] = all[part..].to_vec();
}

fn change_starts(rng: &mut Rng, graph: &mut Graph) {
    match rng.below(3) {
        0 => graph.starts.iter_mut().for_each(|start| *start = !*start),
        1 => graph.starts.fill(true),
        _ => graph.starts.fill(false),
    }
    let sure = rng.below(graph.nodes());
    graph.starts[sure] = true;
}

/// Two chains of nodes that look alike up to their ends, where they stay or turn back.
fn chains(rng: &mut Rng, first: usize, second: usize, signals: usize) -> (Graph, Graph) {
    let label = rng.word() & all_signals(signals);
    let end = match rng.chance(1, 2) {
        true => label,
        false => label ^ 1,
    };
    let other_end = match rng.chance(1, 4) {
        true => end ^ 1,
        false => end,
    };
    let other = if rng.chance(1, 2) { first } else { second };
    let other = other.min(BOTH_NODES - first);
    (
        chain(rng, first, signals, label, end),
        chain(rng, other, signals, label, other_end),
    )
}

fn chain(rng: &mut Rng, nodes: usize, signals: usize, label: u16, end: u16) -> Graph {
    let mut labels = vec![label; nodes];
    labels[nodes - 1] = end;
    let mut starts = vec![false; nodes];
    starts[0] = true;
    let mut targets: Vec<Vec<usize>> = (0..nodes).map(|node| vec![node + 1]).collect();
    let back = if rng.chance(1, 2) {
        nodes - 1
    } else {
        rng.below(nodes)
    };
    targets[nodes - 1] = vec![back];
    Graph {
        signals,
        labels,
        starts,
        targets,
    }
}

fn sheet(rng: &mut Rng, nodes: usize, signals: usize) -> Vec<u16> {
    let graph = graph(rng, nodes, signals);
    lay_out(rng, &graph).words()
}

fn refused(rng: &mut Rng) -> (Vec<u16>, Vec<u16>) {
    let signals = rng.between(1, SIGNALS - 1);
    let nodes = rng.between(1, 8);
    match rng.below(6) {
        0 => (sheet(rng, nodes, signals), sheet(rng, nodes, signals + 1)),
        1 => {
            let first = rng.between(1, BOTH_NODES);
            let second = BOTH_NODES + 1 - first;
            (sheet(rng, first, signals), sheet(rng, second, signals))
        }
        2 => {
            let nodes = rng.between(BOTH_NODES / 2 + 1, BOTH_NODES);
            let whole = sheet(rng, nodes, signals);
            (whole.clone(), whole)
        }
        _ => {
            let first = faulty(rng, nodes, signals);
            let second = faulty(rng, nodes, signals);
            (first, second)
        }
    }
}

/// A sheet with a fault, or none.
fn faulty(rng: &mut Rng, nodes: usize, signals: usize) -> Vec<u16> {
    let graph = graph(rng, nodes, signals);
    let mut sheet = lay_out(rng, &graph);
    if rng.chance(1, 2) {
        rng.pick(&MACHINE_FAULTS).1(rng, &mut sheet);
    }
    let mut words = sheet.words();
    match rng.below(6) {
        0 => any_word(rng, &mut words),
        1 => words.truncate(rng.below(11)),
        _ => (),
    }
    words
}

/// A space for the rule: exact, one word short, longer, or any shorter, full of other words.
fn space(rng: &mut Rng, first: &[u16], second: &[u16]) -> Vec<u16> {
    let count = |words: &[u16], place: usize, most: usize| {
        usize::from(words.get(place).copied().unwrap_or(0)).min(most)
    };
    let nodes = |words: &[u16]| count(words, machine_header::NODES, NODES);
    let signals = count(first, machine_header::SIGNALS, SIGNALS);
    let asked = rule_space(signals, nodes(first) + nodes(second));
    let length = match rng.below(12) {
        0 => asked - 1,
        1 => rng.below(asked),
        2 | 3 => asked + rng.between(1, 40),
        _ => asked,
    };
    (0..length).map(|_| rng.word()).collect()
}

#[cfg(test)]
mod tests {
    use super::*;
    use crate::compare::{settled, Answer};
    use crate::coverage::Coverage;
    use crate::worked;
    use std::collections::BTreeSet;

    fn answer(pair: &MachinePair) -> String {
        match settled(&pair.first, &pair.second, pair.space.len()) {
            Answer::Equal => "equal".to_string(),
            Answer::Unequal => "unequal".to_string(),
            Answer::Refused(refusal) => format!("{refusal:?}"),
        }
    }

    #[test]
    fn pairs_reach_every_answer() {
        let mut coverage = Coverage::new();
        for case in 0..8_000 {
            let mut rng = Rng::for_case(71, case);
            let kind = KINDS[case as usize % KINDS.len()];
            let pair = of_kind(&mut rng, kind);
            let answer = answer(&pair);
            coverage.note(&format!("{kind:?}: {answer}"));
            coverage.note(&answer);
            let nodes = [&pair.first, &pair.second].map(|words| words.first().copied());
            if nodes == [Some(1), Some(BOTH_NODES as u16 - 1)] {
                coverage.note("1 + 127 nodes");
            }
        }
        for kind in [
            Kind::FarChange,
            Kind::Chains,
            Kind::EarlierChoice,
            Kind::OtherStarts,
        ] {
            coverage.require(&format!("{kind:?}: equal"), 50);
            coverage.require(&format!("{kind:?}: unequal"), 100);
        }
        assert_eq!(coverage.count("Bisimilar: unequal"), 0, "{coverage}");
        assert_eq!(coverage.count("Itself: unequal"), 0, "{coverage}");
        coverage.require("Apart: unequal", 500);
        coverage.require("1 + 127 nodes", 40);
        for question in [20, 21, 22] {
            coverage.require(&format!("Refusal {{ question: {question}, sheet: 0 }}"), 80);
        }
        for sheet in [1, 2] {
            for question in 1..=6 {
                let event = format!("Refusal {{ question: {question}, sheet: {sheet} }}");
                coverage.require(&event, 4);
            }
        }
    }

    // M5 with its choice made a step earlier is M6, up to the order of the nodes.
    #[test]
    fn an_earlier_choice_makes_m6_of_m5() {
        let mut graph = Graph {
            signals: 2,
            labels: vec![0, 0, 1, 2],
            starts: vec![true, false, false, false],
            targets: vec![vec![1], vec![2, 3], vec![2], vec![3]],
        };
        choose_earlier(&mut Rng::new(1), &mut graph);
        assert_eq!(
            graph.targets,
            [vec![1, 4], vec![2], vec![2], vec![3], vec![3]]
        );
        let words = lay_out(&mut Rng::new(1), &graph).words();
        assert_eq!(settled(&words, &worked::m6(), 6_000), Answer::Equal);
        assert_eq!(settled(&words, &worked::m5(), 6_000), Answer::Unequal);
    }

    /// All that is seen along paths of so many nodes from a start.
    fn seen_from_starts(graph: &Graph, length: usize) -> BTreeSet<Vec<u16>> {
        let starts = (0..graph.nodes()).filter(|&node| graph.starts[node]);
        let mut walks: BTreeSet<(Vec<u16>, usize)> = starts
            .map(|node| (vec![graph.labels[node]], node))
            .collect();
        for _ in 1..length {
            let longer = walks.iter().flat_map(|(seen, node)| {
                graph.targets[*node].iter().map(|&target| {
                    let mut seen = seen.clone();
                    seen.push(graph.labels[target]);
                    (seen, target)
                })
            });
            walks = longer.collect();
        }
        walks.into_iter().map(|(seen, _)| seen).collect()
    }

    #[test]
    fn an_earlier_choice_keeps_the_paths() {
        let mut changed = 0;
        for case in 0..300 {
            let mut rng = Rng::for_case(73, case);
            let nodes = rng.between(2, 4);
            let before = graph(&mut rng, nodes, 1);
            let mut after = before.clone();
            choose_earlier(&mut rng, &mut after);
            changed += usize::from(after.nodes() > before.nodes());
            assert_eq!(
                seen_from_starts(&before, 5),
                seen_from_starts(&after, 5),
                "case {case}"
            );
        }
        assert!(changed > 100, "only {changed} machines with a choice");
    }

    #[test]
    fn a_copy_has_the_nodes_that_were_asked_for() {
        for case in 0..300 {
            let mut rng = Rng::for_case(72, case);
            let base = graph(&mut rng, 3, 2);
            let wanted = rng.between(1, 20);
            assert_eq!(copy(&mut rng, &base, wanted).nodes(), wanted.max(3));
        }
    }
}
