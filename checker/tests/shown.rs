//! The labelling program and the path program, run on machines and rules, accepted and damaged: every
//! text beside the checker's own labelling, and every printed path held to all that is asked of it.

mod programs;

use checker::format::SHEETS_BYTES;
use checker::path::Asked;
use checker::program::bytes;
use checker::shown;
use checker::trial;
use checker::worked;
use std::io::Write;

const SEED: u64 = 0x7368_6f77_6e01;
const CASES: u64 = 2_000;

fn printed(program: &str, arguments: &[&str], input: &[u8]) -> String {
    let output = programs::run(program, arguments, input);
    assert!(output.stderr.is_empty(), "{output:?}");
    String::from_utf8(output.stdout).expect("ASCII")
}

fn path(input: &[u8], asked: Asked) -> String {
    let (line, node) = (asked.line.to_string(), asked.node.to_string());
    printed("path", &[&line, &node], input)
}

fn even_on_m3() -> Vec<u8> {
    bytes(&[worked::m3(), worked::even()].concat())
}

#[test]
fn labels_of_inputs() {
    let seen = trial::labels(SEED, CASES, |input| printed("label", &[], input));
    writeln!(
        std::io::stderr(),
        "seed {SEED:#x}, {CASES} labellings\n{seen}"
    )
    .expect("standard error can be written");
    for answer in [
        "kept",
        "not kept",
        "labelling refused by question  0, sheet 0",
        "labelling refused by question  1, sheet 1",
        "labelling refused by question  8, sheet 0",
        "labelling refused by question 16, sheet 0",
    ] {
        seen.require(answer, 20);
    }
}

#[test]
fn paths_of_inputs() {
    let seen = trial::paths(SEED + 1, CASES, path);
    writeln!(
        std::io::stderr(),
        "seed {:#x}, {CASES} inputs, three paths each\n{seen}",
        SEED + 1
    )
    .expect("standard error can be written");
    for answer in [
        "a path",
        "no path",
        "path refused by question  0, sheet 0",
        "path refused by question  1, sheet 1",
        "path refused by question 18, sheet 0",
    ] {
        seen.require(answer, 20);
    }
}

#[test]
fn sizes_at_the_limit() {
    let most = SHEETS_BYTES;
    for length in [0, 1, 2, most - 1, most, most + 1, most + 2, 70_000] {
        let input = vec![1u8; length];
        let model = shown::model(&input);
        let asked = Asked { line: 0, node: 1 };
        let text = printed("label", &[], &input);
        assert_eq!(shown::judge_labels(&model, &text), Ok(()), "{length} bytes");
        let judged = shown::judge_path(&model, asked, &path(&input, asked));
        assert!(judged.is_ok(), "{length} bytes: {judged:?}");
    }
}

#[test]
fn arguments_that_are_numbers() {
    let (input, right) = (
        even_on_m3(),
        path(&even_on_m3(), Asked { line: 0, node: 1 }),
    );
    for arguments in [["2", "1"], ["0", "000001"], ["00000", "1"]] {
        assert_eq!(printed("path", &arguments, &input), right, "{arguments:?}");
    }
    for arguments in [["0", "65535"], ["65535", "1"], ["1", "1"], ["0", "0"]] {
        let refusal = shown::refusal_in(&printed("path", &arguments, &input));
        assert_eq!(refusal.map(|it| it.question), Some(18), "{arguments:?}");
    }
}

#[test]
fn arguments_that_are_none() {
    let input = even_on_m3();
    let mut wrong: Vec<Vec<&str>> = vec![vec![], vec!["0"], vec!["0", "1", "1"]];
    for text in [
        "",
        "x",
        "-1",
        "+1",
        "1 2",
        "#1",
        "1x",
        "65536",
        "99999",
        "1:",
        "1/",
        "0#x",
        " 0 ",
        "0 ",
        " 1",
        "1\n",
        "1\t",
        "655350",
        "00000000000000001",
    ] {
        wrong.push(vec![text, "1"]);
        wrong.push(vec!["0", text]);
    }
    for arguments in wrong {
        let output = programs::run("path", &arguments, &input);
        assert!(output.stdout.is_empty(), "{arguments:?}: {output:?}");
        assert!(
            output.stderr.starts_with(b"usage: path LINE NODE"),
            "{arguments:?}"
        );
        assert!(output.stderr.ends_with(b"\n"), "{arguments:?}");
    }
}
