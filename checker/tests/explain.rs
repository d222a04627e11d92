//! The explaining program, run on inputs of every kind: the rule that it prints, as a sentence and line by line, is read back and judged
//! by the checker's own truth on both machines, and so are the machine that it names and the start node.

mod programs;

use checker::coverage::Coverage;
use checker::explanation::judge;
use checker::generate::{inputs, machine_pairs};
use checker::program::bytes;
use checker::rng::Rng;
use checker::worked;
use std::collections::BTreeMap;
use std::io::Write;

const SEED: u64 = 0x6578_706c_6169_6e01;
const CASES: u64 = 3_000;

fn explain(input: &[u8]) -> String {
    let output = programs::run("explain", &[], input);
    assert!(output.stderr.is_empty(), "{output:?}");
    String::from_utf8(output.stdout).expect("the text is in ASCII")
}

#[test]
fn whole_inputs() {
    let mut seen = Coverage::new();
    let mut reasons = BTreeMap::new();
    for case in 0..CASES {
        let input = inputs::any(&mut Rng::for_case(SEED, case));
        let printed = explain(&input);
        let (line, reason) = judge(&input, &printed)
            .unwrap_or_else(|wrong| panic!("seed {SEED:#x}, case {case}: {wrong}\n{printed}"));
        for keeper in ["first", "second"] {
            if printed.contains(&format!("The {keeper} machine keeps")) {
                seen.note(&format!("kept by the {keeper}"));
            }
        }
        note_sentence(&mut seen, &printed);
        if let Some(question) = line.strip_prefix("refused ") {
            let question = question.split(' ').next().map(str::to_string);
            let told = reasons.entry(question).or_insert_with(|| reason.clone());
            assert_eq!(*told, reason, "one reason for each question");
        }
        seen.note(&line);
    }
    writeln!(std::io::stderr(), "seed {SEED:#x}, {CASES} inputs\n{seen}")
        .expect("standard error can be written");
    for line in ["equal", "refused 0 0", "refused 1 1", "refused 1 2"] {
        seen.require(line, 8);
    }
    for keeper in ["kept by the first", "kept by the second"] {
        seen.require(keeper, 100);
    }
    require_forms(&seen);
    let mut told: Vec<&String> = reasons.values().collect();
    told.sort();
    told.dedup();
    assert_eq!(
        told.len(),
        reasons.len(),
        "another reason for each question"
    );
}

/// The forms that a sentence can have.
const FORMS: [(&str, &str); 9] = [
    ("a signal that is on", "signal 1 is on"),
    ("a signal that is off", "signal 1 is off"),
    ("neither of two", "neither signal "),
    ("more signals", " are off"),
    ("some next node", "some next node has: "),
    ("no next node", "no next node has: "),
    ("in a line", "has: signal 1 is on, and "),
    ("parts set in", "some next node has:\n"),
    ("a part that refers to its line", "next node has line "),
];

/// Notes which forms the sentence of a printed text has.
fn note_sentence(seen: &mut Coverage, printed: &str) {
    if let Some((sentence, _)) = printed.split_once("Line by line:\n") {
        for (form, words) in FORMS {
            if sentence.contains(words) {
                seen.note(form);
            }
        }
    }
}

fn require_forms(seen: &Coverage) {
    for (form, _) in FORMS {
        seen.require(form, 20);
    }
}

// Long rules, whose sentence has to stop somewhere.
#[test]
fn machines_that_differ_far_down() {
    let mut seen = Coverage::new();
    for case in 0..CASES {
        let mut rng = Rng::for_case(SEED + 1, case);
        let kind = *rng.pick(&[machine_pairs::Kind::FarChange, machine_pairs::Kind::Chains]);
        let pair = machine_pairs::of_kind(&mut rng, kind);
        let input = bytes(&[pair.first, pair.second].concat());
        let printed = explain(&input);
        if let Err(wrong) = judge(&input, &printed) {
            panic!("seed {:#x}, case {case}: {wrong}\n{printed}", SEED + 1);
        }
        note_sentence(&mut seen, &printed);
        if printed.contains("\n300: ") {
            seen.note("300 lines");
        }
    }
    writeln!(std::io::stderr(), "{CASES} pairs\n{seen}").expect("standard error can be written");
    require_forms(&seen);
}

#[test]
fn worked_machines() {
    for (first, second) in [
        (worked::m1(), worked::m2()),
        (worked::m1(), worked::m3()),
        (worked::m3(), worked::m1()),
        (worked::m5(), worked::m6()),
        (worked::m6(), worked::m5()),
        (worked::m1(), worked::m5()),
    ] {
        let input = bytes(&[first, second].concat());
        let printed = explain(&input);
        if let Err(wrong) = judge(&input, &printed) {
            panic!("{wrong}\n{printed}");
        }
    }
}

/// As the README shows them.
#[test]
fn sentences_of_worked_machines() {
    let said = |first: Vec<u16>, second: Vec<u16>| {
        let printed = explain(&bytes(&[first, second].concat()));
        let sentence = printed.split_once("Line by line:\n").expect("a rule").0;
        sentence.split_once('\n').expect("a heading").1.to_string()
    };
    assert_eq!(
        said(worked::m1(), worked::m3()),
        "  not: signal 1 is on, and some next node has: signal 1 is on\n"
    );
    assert_eq!(
        said(worked::m5(), worked::m6()),
        "  not:
    neither signal 1 nor signal 2 is on,
    and no next node has: signal 1 is on,
    and no next node has: signal 2 is on, and signal 1 is off,
    and some next node has:
      neither signal 1 nor signal 2 is on,
      and some next node has: signal 1 is on,
      and some next node has: signal 2 is on, and signal 1 is off\n"
    );
}
