//! The stack of the entry points: each runs, on the largest input, in a thread with 128 KiB. The environment variable STACK_KIB gives
//! another size, to find how much each needs: a call that needs more ends the process.

mod exports;

use checker::compare;
use checker::format::{rows_words, rule_header, rule_space, BOTH_NODES, LINES, PAIRS, SIGNALS};
use checker::generate::machines::{lay_out, Graph};
use checker::generate::pairs::{self, Scale};
use checker::labelling::Labelling;
use checker::path::{self, Asked};
use checker::rng::Rng;
use checker::rules::Line;
use checker::truth::Model;
use std::thread::Builder;

const SEED: u64 = 0x7374_6163_6b01;

fn stack() -> usize {
    let given = std::env::var("STACK_KIB").map(|kib| kib.parse().expect("a number of KiB"));
    1024 * given.unwrap_or(128)
}

/// Runs the call in a thread with little stack.
fn with_little_stack<T: Send + 'static>(call: impl FnOnce() -> T + Send + 'static) -> T {
    Builder::new()
        .stack_size(stack())
        .spawn(call)
        .expect("a thread can be started")
        .join()
        .expect("the call ends")
}

#[test]
fn labelling_fits() {
    let (machine, rules) = pairs::valid(&mut Rng::for_case(SEED, 0), Scale::Full);
    let answer = with_little_stack(move || {
        let mut rows = vec![0u64; rows_words(LINES)];
        exports::label(&machine, &rules, &mut rows)
    });
    assert!(matches!(answer, Labelling::Done { .. }), "{answer:?}");
}

#[test]
fn a_path_fits() {
    let (machine, rules) = pairs::valid(&mut Rng::for_case(SEED, 0), Scale::Full);
    let model = Model::read(&machine, &rules).expect("the sheets are valid");
    let lines = model.rules.lines.iter().zip(&model.truth).enumerate();
    let (line, node) = lines
        .filter(|(_, (line, _))| matches!(line, Line::SomePath { .. }))
        .find_map(|(line, (_, row))| Some((1 + line, 1 + row.iter().position(|&holds| holds)?)))
        .expect("some path line is true somewhere");
    let asked = Asked {
        line: line as u64,
        node: node as u64,
    };
    let answer = with_little_stack(move || {
        let mut list = vec![(0, 0); PAIRS];
        exports::path(&machine, &rules, asked, &mut list)
    });
    assert!(matches!(answer, path::Answer::Shown { .. }), "{answer:?}");
}

/// A machine with all signals that starts at its first node, where the first signal is on at one node alone.
fn machine(targets: Vec<Vec<usize>>, marked: usize) -> Vec<u16> {
    let nodes = targets.len();
    let graph = Graph {
        signals: SIGNALS,
        labels: (0..nodes).map(|node| u16::from(node == marked)).collect(),
        starts: (0..nodes).map(|node| node == 0).collect(),
        targets,
    };
    lay_out(&mut Rng::for_case(SEED, 1), &graph).words()
}

fn ring(nodes: usize, marked: usize) -> Vec<u16> {
    machine((1..=nodes).map(|next| vec![next % nodes]).collect(), marked)
}

/// The nodes of each machine where both have as many as the two can have.
const HALF: usize = BOTH_NODES / 2;

/// A ring of so many nodes where some have a second edge, and the same with one edge changed: the rules that tell such machines apart are
/// the longest that were found.
fn changed_ring(rng: &mut Rng) -> [Vec<u16>; 2] {
    let mut targets: Vec<Vec<usize>> = (1..=HALF).map(|next| vec![next % HALF]).collect();
    for edges in &mut targets {
        if rng.chance(1, 4) {
            edges.push(rng.below(HALF));
        }
    }
    let marked = rng.below(HALF);
    let before = machine(targets.clone(), marked);
    targets[rng.below(HALF)][0] = rng.below(HALF);
    [before, machine(targets, marked)]
}

/// Compares two machines that have as many nodes as two can have; gives the number of lines that are written, 0 where none are.
fn lines_of_a_comparison(first: &[u16], second: &[u16]) -> u16 {
    let before = vec![0; rule_space(SIGNALS, BOTH_NODES)];
    let [one, other, mut space] = [first, second, &before].map(<[u16]>::to_vec);
    let (answer, space) = with_little_stack(move || {
        let answer = exports::compare(&one, &other, &mut space);
        (answer, space)
    });
    let judged = compare::judge(first, second, &before, answer, &space);
    assert_eq!(judged, Ok(()));
    space[rule_header::LINES]
}

#[test]
fn a_comparison_fits() {
    let most = BOTH_NODES - 1;
    for [first, second] in [
        [ring(HALF, HALF - 1), ring(HALF, HALF - 1)],
        [ring(HALF, HALF - 1), ring(HALF, HALF - 2)],
        [ring(most, most - 1), ring(1, 0)],
        [ring(1, 0), ring(most, most - 1)],
    ] {
        lines_of_a_comparison(&first, &second);
    }
    let lines = (0..100).map(|case| {
        let [first, second] = changed_ring(&mut Rng::for_case(SEED, case));
        lines_of_a_comparison(&first, &second)
    });
    assert!(lines.max() > Some(300), "a long rule is written");
}
