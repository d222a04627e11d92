//! The worked sheets of the scope document and the sheets of its marked cases, word for word
//! where it gives the words. M5 and M6 are given there as graphs; their records stand here in
//! the order of the nodes.

use crate::format::{node, NEXT_WORDS, NODES_FROM};

/// One node with signal 1 and an edge to itself.
pub fn m1() -> Vec<u16> {
    vec![1, 1, 1, 1, 1, 1, 1, 0]
}

/// Two nodes with signal 1 that lead to each other.
pub fn m2() -> Vec<u16> {
    vec![2, 1, 2, 1, 1, 1, 1, 0, 2, 2, 0, 1, 0]
}

/// M2 with the second node's signals 0.
pub fn m3() -> Vec<u16> {
    let mut words = m2();
    words[NODES_FROM + node::WORDS + node::SIGNALS] = 0;
    words
}

/// 1 to 2, 2 to 3 and 4, which stay: the choice is made at 2.
pub fn m5() -> Vec<u16> {
    vec![
        4, 2, 5, //
        0, 1, 1, 0, 0, 2, 1, 0, 4, 2, 0, 5, //
        2, 0, 3, 3, 4, 0, 3, 0, 4, 0,
    ]
}

/// 1 to 2 and 3, 2 to 4, 3 to 5, which stay: the same paths, but the choice is made at 1.
pub fn m6() -> Vec<u16> {
    vec![
        5, 2, 6, //
        0, 1, 1, 0, 0, 3, 0, 0, 4, 1, 0, 5, 2, 0, 6, //
        2, 2, 3, 0, 4, 0, 5, 0, 4, 0, 5, 0,
    ]
}

/// Eight nodes in a ring, where only the first has the signal.
pub fn ring_of_eight() -> Vec<u16> {
    let mut words = vec![8, 1, 8];
    for node in 1..=8 {
        let first = u16::from(node == 1);
        words.extend([first, first, node]);
    }
    for node in 1..=8 {
        words.extend([node % 8 + 1, 0]);
    }
    words
}

/// The rule whose only line is signal 1.
pub fn signal_alone() -> Vec<u16> {
    vec![0, 0, 0, 1, 0, 1, 0, 0, 0, 0]
}

/// Even over signal 1 under operation 3: the signal holds at every second place of some path.
pub fn even() -> Vec<u16> {
    vec![
        1, 3, 4, 2, 1, 1, //
        1, 1, 2, 1, 3, 3, 0, 4, 0, //
        2, 2, 2, 3, 1, 0, 1, 3, 0, 3, 3, 0, //
        0, 1, 0, 0, 0, 0, 3, 1, 1, 0, 0, 0,
    ]
}

/// Operation 3, v = 0, one state with mask 1.
pub fn constant(accepting: u16) -> Vec<u16> {
    vec![
        1, 1, 1, 1, 0, 1, //
        accepting, 1, 0, 1, 1, 0, //
        3, 1, 0, 0, 0, 0,
    ]
}

/// Two states, one accepting, mask 2 to the accepting and mask 1 to the other from both.
pub fn mixed() -> Vec<u16> {
    vec![
        1, 2, 4, 1, 1, 1, //
        1, 1, 2, 0, 3, 0, //
        1, 2, 2, 2, 1, 0, 1, 2, 4, 2, 1, 0, //
        0, 1, 0, 0, 0, 0,
    ]
}

/// v = 1, mask 1 alone.
pub fn incomplete() -> Vec<u16> {
    vec![
        1, 1, 1, 1, 1, 1, //
        1, 1, 0, 1, 1, 0, //
        0, 1, 0, 0, 0, 0,
    ]
}

/// The words of Next after the automaton record: four states, then five edges.
pub const NEXT: [u16; NEXT_WORDS] = [
    0, 1, 2, 0, 2, 3, 1, 4, 4, 0, 5, 0, //
    2, 3, 0, 3, 2, 3, 4, 1, 0, 3, 3, 0, 4, 3, 0,
];

/// The head of a written rule: the header with its number of lines, the automaton record, Next.
pub fn written_head(lines: u16) -> Vec<u16> {
    let mut words = vec![1, 4, 5, lines, 1, 1];
    words.extend(NEXT);
    words
}

/// Next of signal 1.
pub fn next_of_signal() -> Vec<u16> {
    let mut words = written_head(2);
    words.extend([0, 1, 0, 0, 0, 0, 3, 1, 1, 0, 0, 0]);
    words
}
