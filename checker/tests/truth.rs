//! The proved labelling and path beside the checker's own truth, on pairs of a machine and a rule:
//! every answer and every lent word.

mod exports;

use checker::format::NODES;
use checker::generate::machines::{self, Graph};
use checker::labelling::{self, Labelling};
use checker::rng::Rng;
use checker::truth::Model;
use checker::{trial, worked};
use std::io::Write;

const SEED: u64 = 0x7472_7574_6801;
const CASES: u64 = 100_000;

#[test]
fn labelling_and_path() {
    let seen = trial::truth(SEED, CASES, exports::label, exports::path);
    writeln!(
        std::io::stderr(),
        "seed {SEED:#x}, {CASES} pairs of sheets, a labelling and three paths each\n{seen}"
    )
    .expect("standard error can be written");
    for (answer, least) in [
        ("kept", 5_000),
        ("not kept", 5_000),
        ("a path", 5_000),
        ("no path", 5_000),
        ("labelling refused by question 17, sheet 0", 500),
        ("path refused by question 18, sheet 0", 500),
        ("path refused by question 19, sheet 0", 500),
    ] {
        seen.require(answer, least);
    }
}

// Every count among every number of nodes: the rule is "signal 1", and so many nodes have the signal.
#[test]
fn every_percent() {
    let rules = worked::signal_alone();
    let mut rng = Rng::new(SEED);
    for nodes in 1..=NODES {
        for count in 0..=nodes {
            let graph = Graph {
                labels: (0..nodes).map(|node| u16::from(node < count)).collect(),
                ..machines::graph(&mut rng, nodes, 1)
            };
            let machine = machines::lay_out(&mut rng, &graph).words();
            let (mut rows, mut right) = ([u64::MAX; 3], [u64::MAX; 3]);
            let answer = exports::label(&machine, &rules, &mut rows);
            let expected = labelling::label(&Model::read(&machine, &rules), &mut right);
            assert!(matches!(expected, Labelling::Done { count: c, .. } if c == count));
            assert_eq!((answer, rows), (expected, right), "{count} of {nodes}");
        }
    }
}
