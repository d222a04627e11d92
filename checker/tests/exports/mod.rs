//! The proved functions, as the static library exports them: C calls, where a slice is handed
//! over as its first word's address and its length. All unsafe code of the package is here.
//!
//! An empty slice is handed over as a null pointer, which the header allows.

// Each test file calls its own part of these.
#![allow(dead_code)]

use checker::compare;
use checker::labelling::Labelling;
use checker::path::{self, Asked, Pair};
use checker::refusal::Refusal;
use std::ptr;

/// A place of a list of pairs, as the header declares it.
#[repr(C)]
#[derive(Clone, Copy)]
pub struct Place {
    pub node: u16,
    pub state: u16,
}

extern "C" {
    fn toqshenay_check_machine(words: *const u16, length: usize) -> u16;
    fn toqshenay_check_rules(words: *const u16, length: usize) -> u16;
    fn toqshenay_label(
        machine: *const u16,
        machine_length: usize,
        rules: *const u16,
        rules_length: usize,
        rows: *mut u64,
        rows_length: usize,
        sheet: *mut u16,
        kept: *mut u16,
        count: *mut u32,
        percent: *mut u32,
    ) -> u16;
    fn toqshenay_path(
        machine: *const u16,
        machine_length: usize,
        rules: *const u16,
        rules_length: usize,
        line: u16,
        node: u16,
        nodes: *mut u16,
        nodes_length: usize,
        states: *mut u16,
        states_length: usize,
        sheet: *mut u16,
        length: *mut u16,
        back: *mut u16,
    ) -> u16;
    fn toqshenay_path_pairs(
        machine: *const u16,
        machine_length: usize,
        rules: *const u16,
        rules_length: usize,
        line: u16,
        node: u16,
        list: *mut Place,
        list_length: usize,
        sheet: *mut u16,
        length: *mut u16,
        back: *mut u16,
    ) -> u16;
    fn toqshenay_compare(
        first: *const u16,
        first_length: usize,
        second: *const u16,
        second_length: usize,
        space: *mut u16,
        space_length: usize,
        sheet: *mut u16,
        unequal: *mut u16,
    ) -> u16;
}

fn address(words: &[u16]) -> *const u16 {
    match words {
        [] => ptr::null(),
        _ => words.as_ptr(),
    }
}

fn place<T>(items: &mut [T]) -> *mut T {
    match items {
        [] => ptr::null_mut(),
        _ => items.as_mut_ptr(),
    }
}

/// 0 if the questions 1 to 6 accept the sheet, else the number of the one that refuses it.
pub fn check_machine(words: &[u16]) -> u16 {
    // SAFETY: the address and the length are those of a slice that lives through the call.
    unsafe { toqshenay_check_machine(address(words), words.len()) }
}

/// 0 if the questions 7 to 15 accept the sheet, else the number of the one that refuses it.
pub fn check_rules(words: &[u16]) -> u16 {
    // SAFETY: the address and the length are those of a slice that lives through the call.
    unsafe { toqshenay_check_rules(address(words), words.len()) }
}

/// Labels the rules on the machine; the rows go to the space.
pub fn label(machine: &[u16], rules: &[u16], rows: &mut [u64]) -> Labelling {
    let (mut sheet, mut kept, mut count, mut percent) = (0, 0, 0, 0);
    // SAFETY: addresses and lengths are those of slices and numbers that live through the call.
    let question = unsafe {
        toqshenay_label(
            address(machine),
            machine.len(),
            address(rules),
            rules.len(),
            place(rows),
            rows.len(),
            &mut sheet,
            &mut kept,
            &mut count,
            &mut percent,
        )
    };
    match question {
        0 => Labelling::Done {
            kept: kept == 1,
            count: count as usize,
            percent: percent as usize,
        },
        _ => Labelling::Refused(Refusal { question, sheet }),
    }
}

/// Asks for a path; its pairs go to the list. Both calls are made, that over two lists and that over a list of pairs, and they answer
/// and write the same.
pub fn path(machine: &[u16], rules: &[u16], asked: Asked, list: &mut [Pair]) -> path::Answer {
    let mut apart = list.to_vec();
    let answer = path_lists(machine, rules, asked, &mut apart);
    assert_eq!(path_pairs(machine, rules, asked, list), answer);
    assert!(*list == *apart, "the two calls write the same");
    answer
}

fn path_lists(machine: &[u16], rules: &[u16], asked: Asked, list: &mut [Pair]) -> path::Answer {
    let (mut nodes, mut states): (Vec<u16>, Vec<u16>) = list.iter().copied().unzip();
    let (mut sheet, mut length, mut back) = (0, 0, 0);
    // SAFETY: addresses and lengths are those of slices and numbers that live through the call.
    let question = unsafe {
        toqshenay_path(
            address(machine),
            machine.len(),
            address(rules),
            rules.len(),
            word(asked.line),
            word(asked.node),
            place(&mut nodes),
            nodes.len(),
            place(&mut states),
            states.len(),
            &mut sheet,
            &mut length,
            &mut back,
        )
    };
    for (pair, parts) in list.iter_mut().zip(nodes.into_iter().zip(states)) {
        *pair = parts;
    }
    path_answer(question, sheet, length, back)
}

fn path_pairs(machine: &[u16], rules: &[u16], asked: Asked, list: &mut [Pair]) -> path::Answer {
    let mut places: Vec<Place> = list
        .iter()
        .map(|&(node, state)| Place { node, state })
        .collect();
    let answer = path_places(machine, rules, asked, &mut places);
    for (pair, place) in list.iter_mut().zip(places) {
        *pair = (place.node, place.state);
    }
    answer
}

/// The call over a list of pairs by itself.
pub fn path_places(
    machine: &[u16],
    rules: &[u16],
    asked: Asked,
    places: &mut [Place],
) -> path::Answer {
    let (mut sheet, mut length, mut back) = (0, 0, 0);
    // SAFETY: addresses and lengths are those of slices and numbers that live through the call.
    let question = unsafe {
        toqshenay_path_pairs(
            address(machine),
            machine.len(),
            address(rules),
            rules.len(),
            word(asked.line),
            word(asked.node),
            place(places),
            places.len(),
            &mut sheet,
            &mut length,
            &mut back,
        )
    };
    path_answer(question, sheet, length, back)
}

fn word(number: u64) -> u16 {
    u16::try_from(number).expect("lines and nodes are words")
}

fn path_answer(question: u16, sheet: u16, length: u16, back: u16) -> path::Answer {
    match (question, length) {
        (0, 0) => path::Answer::NoPath,
        (0, _) => path::Answer::Shown {
            length: length.into(),
            back: back.into(),
        },
        _ => path::Answer::Refused(Refusal { question, sheet }),
    }
}

/// Compares two machines; the rule that tells them apart goes to the space.
pub fn compare(first: &[u16], second: &[u16], space: &mut [u16]) -> compare::Answer {
    let (mut sheet, mut unequal) = (0, 0);
    // SAFETY: addresses and lengths are those of slices and numbers that live through the call.
    let question = unsafe {
        toqshenay_compare(
            address(first),
            first.len(),
            address(second),
            second.len(),
            place(space),
            space.len(),
            &mut sheet,
            &mut unequal,
        )
    };
    match (question, unequal) {
        (0, 0) => compare::Answer::Equal,
        (0, _) => compare::Answer::Unequal,
        _ => compare::Answer::Refused(Refusal { question, sheet }),
    }
}
