//! Trials: generated cases are handed to an implementation, and every answer and every lent word
//! is held to what the checker decides. A trial stops at the first difference, with the seed and
//! the case that show it, and gives an account of the answers that it met.
//!
//! Spaces are lent out of longer ones, whose other words must stay too.

use crate::compare;
use crate::coverage::Coverage;
use crate::generate::machine_pairs::{self, MachinePair};
use crate::generate::pairs::{self, Scale};
use crate::generate::{inputs, Guarded};
use crate::labelling::{self, Labelling};
use crate::path::{self, Asked, Pair};
use crate::program::expected_output;
use crate::refusal::Refusal;
use crate::rng::Rng;
use crate::shown;
use crate::truth::Model;

/// An implementation of labelling: machine words, rule words, the space for the rows.
pub trait Label: FnMut(&[u16], &[u16], &mut [u64]) -> Labelling {}
impl<F: FnMut(&[u16], &[u16], &mut [u64]) -> Labelling> Label for F {}

/// An implementation of path: machine words, rule words, what is asked, the list.
pub trait Path: FnMut(&[u16], &[u16], Asked, &mut [Pair]) -> path::Answer {}
impl<F: FnMut(&[u16], &[u16], Asked, &mut [Pair]) -> path::Answer> Path for F {}

/// An implementation of comparison: the words of two machines, the space for the rule.
pub trait Compare: FnMut(&[u16], &[u16], &mut [u16]) -> compare::Answer {}
impl<F: FnMut(&[u16], &[u16], &mut [u16]) -> compare::Answer> Compare for F {}

/// Labelling and path on pairs of a machine and a rule: for each pair one labelling, and a path
/// for several lines and nodes.
pub fn truth(seed: u64, cases: u64, mut label: impl Label, mut path: impl Path) -> Coverage {
    let mut seen = Coverage::new();
    for case in 0..cases {
        let mut rng = Rng::for_case(seed, case);
        let (machine, rules) = pairs::any(&mut rng, scale(case));
        let given = Given {
            model: Model::read(&machine, &rules),
            machine,
            rules,
            origin: format!("seed {seed:#x}, case {case}"),
        };
        seen.note(&given.try_label(&mut rng, &mut label));
        for _ in 0..3 {
            seen.note(&given.try_path(&mut rng, &mut path));
        }
    }
    seen
}

/// Few pairs are as large as can be, since each costs as much as thousands of small ones.
fn scale(case: u64) -> Scale {
    match case % 1_000 {
        999 => Scale::Full,
        989..=998 => Scale::Large,
        _ => Scale::Small,
    }
}

/// One pair of sheets, and what the checker makes of it.
struct Given {
    machine: Vec<u16>,
    rules: Vec<u16>,
    model: Result<Model, Refusal>,
    origin: String,
}

impl Given {
    /// Labels the pair and names the answer.
    fn try_label(&self, rng: &mut Rng, label: &mut impl Label) -> String {
        let origin = &self.origin;
        let lines = self
            .model
            .as_ref()
            .map_or(3, |model| model.rules.lines.len());
        let mut lent = Guarded::new(pairs::rows_space(rng, lines));
        let mut expected_rows = lent.part().to_vec();
        let expected = labelling::label(&self.model, &mut expected_rows);
        let answer = label(&self.machine, &self.rules, lent.part_mut());
        assert_eq!(answer, expected, "labelling, {origin}");
        assert_eq!(lent.part(), expected_rows, "rows, {origin}");
        assert!(
            lent.is_kept_outside(),
            "labelling, {origin}: written past the space"
        );
        match expected {
            Labelling::Refused(refusal) => refused("labelling", refusal),
            Labelling::Done { kept: true, .. } => "kept".to_string(),
            Labelling::Done { kept: false, .. } => "not kept".to_string(),
        }
    }

    /// Asks for a path and names the answer.
    fn try_path(&self, rng: &mut Rng, path: &mut impl Path) -> String {
        let origin = &self.origin;
        let (asked, list) = pairs::path_question(rng, &self.model);
        let mut lent = Guarded::new(list);
        let before = lent.part().to_vec();
        let answer = path(&self.machine, &self.rules, asked, lent.part_mut());
        if let Err(said) = path::judge(&self.model, asked, &before, answer, lent.part()) {
            panic!("path, {origin}, {asked:?}: {said}");
        }
        assert!(
            lent.is_kept_outside(),
            "path, {origin}: written past the list"
        );
        match answer {
            path::Answer::Refused(refusal) => refused("path", refusal),
            path::Answer::NoPath => "no path".to_string(),
            path::Answer::Shown { .. } => "a path".to_string(),
        }
    }
}

fn refused(call: &str, Refusal { question, sheet }: Refusal) -> String {
    format!("{call} refused by question {question:>2}, sheet {sheet}")
}

/// Comparison on pairs of machines.
pub fn comparison(seed: u64, cases: u64, mut compare: impl Compare) -> Coverage {
    let mut seen = Coverage::new();
    for case in 0..cases {
        let MachinePair {
            first,
            second,
            space,
        } = machine_pairs::any(&mut Rng::for_case(seed, case));
        let mut lent = Guarded::new(space);
        let before = lent.part().to_vec();
        let answer = compare(&first, &second, lent.part_mut());
        let judged = compare::judge(&first, &second, &before, answer, lent.part());
        if let Err(said) = judged {
            panic!("comparison, seed {seed:#x}, case {case}: {said}");
        }
        assert!(
            lent.is_kept_outside(),
            "comparison, seed {seed:#x}, case {case}: written past the space"
        );
        seen.note(&match answer {
            compare::Answer::Equal => "equal".to_string(),
            compare::Answer::Unequal => "unequal".to_string(),
            compare::Answer::Refused(refusal) => refused("comparison", refusal),
        });
    }
    seen
}

/// The comparing program: what it prints for an input.
pub fn program(seed: u64, cases: u64, mut run: impl FnMut(&[u8]) -> Vec<u8>) -> Coverage {
    let mut seen = Coverage::new();
    for case in 0..cases {
        let input = inputs::any(&mut Rng::for_case(seed, case));
        let expected = expected_output(&input);
        let printed = run(&input);
        assert_eq!(
            String::from_utf8_lossy(&printed),
            expected,
            "program, seed {seed:#x}, case {case}, {} bytes",
            input.len()
        );
        seen.note(expected.trim_end());
    }
    seen
}

/// The labelling program: what it prints for an input.
pub fn labels(seed: u64, cases: u64, mut run: impl FnMut(&[u8]) -> String) -> Coverage {
    let mut seen = Coverage::new();
    for case in 0..cases {
        let input = inputs::machine_and_rules(&mut Rng::for_case(seed, case), scale(case));
        let printed = run(&input);
        if let Err(said) = shown::judge_labels(&shown::model(&input), &printed) {
            panic!("labels, seed {seed:#x}, case {case}: {said}");
        }
        seen.note(&match shown::refusal_in(&printed) {
            Some(refusal) => refused("labelling", refusal),
            None if printed.contains("not kept") => "not kept".to_string(),
            None => "kept".to_string(),
        });
    }
    seen
}

/// The path program: what it prints for an input, a line and a node.
pub fn paths(seed: u64, cases: u64, mut run: impl FnMut(&[u8], Asked) -> String) -> Coverage {
    let mut seen = Coverage::new();
    for case in 0..cases {
        let mut rng = Rng::for_case(seed, case);
        let input = inputs::machine_and_rules(&mut rng, scale(case));
        let model = shown::model(&input);
        for _ in 0..3 {
            let (asked, _) = pairs::path_question(&mut rng, &model);
            let printed = run(&input, asked);
            match shown::judge_path(&model, asked, &printed) {
                Err(said) => panic!("paths, seed {seed:#x}, case {case}, {asked:?}: {said}"),
                Ok(path::Answer::Refused(refusal)) => seen.note(&refused("path", refusal)),
                Ok(path::Answer::NoPath) => seen.note("no path"),
                Ok(path::Answer::Shown { .. }) => seen.note("a path"),
            }
        }
    }
    seen
}

#[cfg(test)]
mod tests {
    use super::*;
    use crate::compare::Both;
    use crate::format::PAIRS;
    use crate::partition::Refinement;
    use crate::path::Settled;

    const SEED: u64 = 0x7472_6961_6c01;

    fn right_label(machine: &[u16], rules: &[u16], space: &mut [u64]) -> Labelling {
        labelling::label(&Model::read(machine, rules), space)
    }

    fn no_path(machine: &[u16], rules: &[u16], asked: Asked, list: &mut [Pair]) -> path::Answer {
        match path::settled(&Model::read(machine, rules), asked, list.len()) {
            Settled::Refused(refusal) => path::Answer::Refused(refusal),
            _ => path::Answer::NoPath,
        }
    }

    fn right_path(machine: &[u16], rules: &[u16], asked: Asked, list: &mut [Pair]) -> path::Answer {
        let model = Model::read(machine, rules);
        let found = model
            .ok()
            .and_then(|model| path::find(&model, asked, list.len()));
        match found {
            Some((pairs, back)) => {
                list[..pairs.len()].copy_from_slice(&pairs);
                path::Answer::Shown {
                    length: pairs.len() as u64,
                    back,
                }
            }
            None => no_path(machine, rules, asked, list),
        }
    }

    fn wrong_label(change: impl Fn(&mut Labelling, &mut [u64])) {
        let label = |machine: &[u16], rules: &[u16], space: &mut [u64]| {
            let mut answer = right_label(machine, rules, space);
            change(&mut answer, space);
            answer
        };
        truth(SEED, 300, label, right_path);
    }

    #[test]
    #[should_panic(expected = "NoPath, where SomePath is right")]
    fn no_path_before_looking_is_found() {
        truth(SEED, 300, right_label, no_path);
    }

    #[test]
    #[should_panic(expected = "the back index is not in the path")]
    fn a_wrong_back_index_is_found() {
        truth(
            SEED,
            300,
            right_label,
            |machine, rules, asked, list| match right_path(machine, rules, asked, list) {
                path::Answer::Shown { length, .. } => path::Answer::Shown { length, back: 0 },
                answer => answer,
            },
        );
    }

    #[test]
    #[should_panic(expected = "labelling, seed")]
    fn refusing_always_is_found() {
        wrong_label(|answer, _| *answer = Labelling::Refused(Refusal::of(17)));
    }

    #[test]
    #[should_panic(expected = "labelling, seed")]
    fn a_percent_off_by_one_is_found() {
        wrong_label(|answer, _| match answer {
            Labelling::Done { percent, .. } if (1..100).contains(percent) => *percent -= 1,
            _ => (),
        });
    }

    #[test]
    #[should_panic(expected = "rows, seed")]
    fn a_refusal_that_writes_is_found() {
        wrong_label(|answer, space| {
            if let (Labelling::Refused(_), [first, ..]) = (answer, space) {
                *first = !*first;
            }
        });
    }

    #[test]
    #[should_panic(expected = "rows, seed")]
    fn rows_right_for_the_first_line_only_are_found() {
        wrong_label(|answer, space| {
            if let (Labelling::Done { .. }, [_, _, third, ..]) = (answer, space) {
                *third = 0;
            }
        });
    }

    /// An answer by partition refinement, the second method.
    fn refined(first: &[u16], second: &[u16], space: &mut [u16]) -> compare::Answer {
        let both = match Both::read(first, second) {
            Ok(both) if space.len() < both.room() => {
                return compare::Answer::Refused(Refusal::of(22))
            }
            Ok(both) => both,
            Err(refusal) => return compare::Answer::Refused(refusal),
        };
        match Refinement::of(&both).telling_apart(&both) {
            Some(rule) => {
                space[..rule.len()].copy_from_slice(&rule);
                compare::Answer::Unequal
            }
            None => compare::Answer::Equal,
        }
    }

    #[test]
    fn partition_refinement_stands_the_trial() {
        let seen = comparison(SEED, 3_000, refined);
        seen.require("equal", 800);
        seen.require("unequal", 400);
        for question in [20, 21, 22] {
            seen.require(
                &format!("comparison refused by question {question}, sheet 0"),
                20,
            );
        }
    }

    #[test]
    #[should_panic(expected = "Equal, where Unequal is right")]
    fn equal_always_is_found() {
        comparison(SEED, 300, |first, second, space| {
            match refined(first, second, space) {
                compare::Answer::Unequal => compare::Answer::Equal,
                answer => answer,
            }
        });
    }

    #[test]
    #[should_panic(expected = "the head is not the fixed one")]
    fn writing_nothing_is_found() {
        comparison(SEED, 300, |first, second, space| {
            let answer = refined(first, second, &mut space.to_vec());
            if let (compare::Answer::Unequal, [_, _, _, lines, ..]) = (answer, space) {
                *lines = 1;
            }
            answer
        });
    }

    fn refusal_text(Refusal { question, sheet }: Refusal) -> String {
        match (question, sheet) {
            (0, _) => "refused: odd\n".to_string(),
            (_, 1) => format!("refused: question {question} of the first machine sheet: why\n"),
            _ => format!("refused: question {question}: why\n"),
        }
    }

    #[test]
    #[should_panic(expected = "labels, seed")]
    fn a_rule_called_kept_always_is_found() {
        labels(SEED, 100, |input| match shown::model(input) {
            Ok(model) => shown::labels(&model).replace("not kept", "kept"),
            Err(refusal) => refusal_text(refusal),
        });
    }

    #[test]
    #[should_panic(expected = "paths, seed")]
    fn a_text_without_a_path_always_is_found() {
        paths(SEED, 100, |input, asked| {
            match path::settled(&shown::model(input), asked, PAIRS) {
                Settled::Refused(refusal) => refusal_text(refusal),
                _ => format!("no path: the line is false at node {}\n", asked.node),
            }
        });
    }

    #[test]
    #[should_panic(expected = "program, seed")]
    fn a_line_without_its_newline_is_found() {
        program(SEED, 10, |input| expected_output(input).trim_end().into());
    }
}
