//! The proved comparison beside the greatest fixpoint over pairs of nodes: equal exactly where that says so, and each written rule
//! held to all that the document says of it, by the checker's own truth on both machines.

mod exports;

use checker::compare::Answer;
use checker::trial;
use checker::written::twice;
use std::io::Write;

const SEED: u64 = 0x636f_6d70_6172_6501;
const CASES: u64 = 100_000;

#[test]
fn comparison() {
    let seen = trial::comparison(SEED, CASES, |first, second, space| {
        let answer = exports::compare(first, second, space);
        if answer == Answer::Unequal {
            assert_eq!(twice(space), None, "a line that stands twice");
        }
        answer
    });
    writeln!(
        std::io::stderr(),
        "seed {SEED:#x}, {CASES} pairs of machines\n{seen}"
    )
    .expect("standard error can be written");
    seen.require("equal", 20_000);
    seen.require("unequal", 10_000);
    for question in [20, 21, 22] {
        seen.require(
            &format!("comparison refused by question {question}, sheet 0"),
            500,
        );
    }
}
