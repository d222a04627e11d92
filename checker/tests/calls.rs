//! What the header says of every call: NULL is allowed with length 0, and threads may call at once.

mod exports;

use checker::compare;
use checker::labelling::Labelling;
use checker::path::{self, Asked};
use checker::refusal::Refusal;
use checker::{trial, worked};
use std::thread;

const SEED: u64 = 0x6361_6c6c_7301;

// An empty slice is handed over as NULL.
#[test]
fn null_with_length_0() {
    let (machine, rules) = (worked::m1(), worked::constant(1));
    let asked = Asked { line: 1, node: 1 };
    assert_eq!(exports::check_machine(&[]), 1);
    assert_eq!(exports::check_rules(&[]), 7);
    let label = |machine: &[u16], rules: &[u16]| exports::label(machine, rules, &mut []);
    let refused = |refusal| Labelling::Refused(refusal);
    assert_eq!(label(&[], &[]), refused(Refusal::of_machine(1, 1)));
    assert_eq!(label(&machine, &[]), refused(Refusal::of(7)));
    assert_eq!(label(&machine, &rules), refused(Refusal::of(17)));
    let path = |machine: &[u16], rules: &[u16]| exports::path(machine, rules, asked, &mut []);
    let refused = |refusal| path::Answer::Refused(refusal);
    assert_eq!(path(&[], &[]), refused(Refusal::of_machine(1, 1)));
    assert_eq!(path(&machine, &[]), refused(Refusal::of(7)));
    assert_eq!(path(&machine, &rules), refused(Refusal::of(19)));
    let compare = |first: &[u16], second: &[u16]| exports::compare(first, second, &mut []);
    let refused = |refusal| compare::Answer::Refused(refusal);
    assert_eq!(compare(&[], &[]), refused(Refusal::of_machine(1, 1)));
    assert_eq!(compare(&machine, &[]), refused(Refusal::of_machine(1, 2)));
    assert_eq!(compare(&machine, &machine), refused(Refusal::of(22)));
}

#[test]
fn threads_at_once() {
    let compared = |seed| move || trial::comparison(seed, 1_000, exports::compare);
    let labelled = |seed| move || trial::truth(seed, 200, exports::label, exports::path);
    let comparing = [SEED, SEED + 1].map(|seed| thread::spawn(compared(seed)));
    let labelling = [SEED + 2, SEED + 3].map(|seed| thread::spawn(labelled(seed)));
    for thread in comparing.into_iter().chain(labelling) {
        thread.join().expect("no difference is found");
    }
}
