//! What the labelling and the path program print. A labelling's text is settled, so it is written
//! here and compared whole. Which path is shown is free, and so are the words of a refusal: these
//! texts are read back, and what they say is judged.

use crate::format::{rows_words, PAIRS, SHEETS_BYTES};
use crate::labelling::{self, Labelling};
use crate::path::{self, Answer, Asked, Pair};
use crate::program::{cut, words};
use crate::refusal::Refusal;
use crate::truth::Model;

/// The sheets of an input, one after the other; an odd or too long one is refused by 0.
pub fn model(input: &[u8]) -> Result<Model, Refusal> {
    let words = words(input, SHEETS_BYTES).ok_or(Refusal::of(0))?;
    let (machine, rules) = cut(&words);
    Model::read(machine, rules)
}

/// Says what is wrong with the text of a labelling.
pub fn judge_labels(model: &Result<Model, Refusal>, text: &str) -> Result<(), String> {
    let right = match model {
        Ok(model) => text == labels(model),
        Err(refusal) => refusal_in(text) == Some(*refusal),
    };
    match (right, model) {
        (true, _) => Ok(()),
        (false, Ok(model)) => Err(format!("{text:?}, where {:?} is right", labels(model))),
        (false, Err(refusal)) => Err(format!("{text:?}, where {refusal:?} is right")),
    }
}

/// The text of a labelling that is not refused: a line of text for each line of the rule, whether the
/// rule is kept, and the count and percent of the nodes where it is true.
pub fn labels(model: &Model) -> String {
    let nodes = model.machine.nodes();
    let mut text = String::new();
    for (index, row) in model.truth.iter().enumerate() {
        let held = (1..=nodes).filter(|node| row[node - 1]);
        let names: Vec<String> = held.map(|node| format!(" {node}")).collect();
        let colon = if names.is_empty() { "" } else { ":" };
        let (line, count, names) = (index + 1, names.len(), names.concat());
        text += &format!("line {line}: true at {count} of {nodes} nodes{colon}{names}\n");
    }
    let mut space = vec![0; rows_words(model.truth.len())];
    match labelling::label(&Ok(model.clone()), &mut space) {
        Labelling::Refused(refusal) => unreachable!("{refusal:?}, with space for every line"),
        Labelling::Done {
            kept,
            count,
            percent,
        } => {
            text += match kept {
                true => "the rule is kept: it is true at every start node\n",
                false => "the rule is not kept\n",
            };
            text + &format!("true at {count} of {nodes} nodes, {percent} percent\n")
        }
    }
}

/// Says what is wrong with the text of a path; gives the answer that it says if nothing is.
pub fn judge_path(
    model: &Result<Model, Refusal>,
    asked: Asked,
    text: &str,
) -> Result<Answer, String> {
    let (answer, pairs) = path_in(asked, text).ok_or(format!("no answer: {text:?}"))?;
    let before = vec![(0, 0); PAIRS];
    let mut after = before.clone();
    match after.get_mut(..pairs.len()) {
        Some(head) => head.copy_from_slice(&pairs),
        None => return Err(format!("{} pairs", pairs.len())),
    }
    path::judge(model, asked, &before, answer, &after).map(|()| answer)
}

/// The answer that a text says, and the pairs of its path.
fn path_in(asked: Asked, text: &str) -> Option<(Answer, Vec<Pair>)> {
    if let Some(refusal) = refusal_in(text) {
        return Some((Answer::Refused(refusal), Vec::new()));
    }
    if text == format!("no path: the line is false at node {}\n", asked.node) {
        return Some((Answer::NoPath, Vec::new()));
    }
    let mut lines: Vec<&str> = text.lines().collect();
    let back = lines.pop()?;
    let back = back.strip_prefix("the last pair goes back to pair ")?;
    let back = back.parse().ok()?;
    let pairs: Option<Vec<Pair>> = lines.into_iter().map(pair_in).collect();
    let pairs = pairs?;
    let length = pairs.len() as u64;
    let answer = Answer::Shown { length, back };
    (text == path_text(&pairs, back)).then_some((answer, pairs))
}

/// The pair of a line; whether the line is numbered rightly is seen when the text is written again.
fn pair_in(line: &str) -> Option<Pair> {
    let (_, pair) = line.split_once(": node ")?;
    let (node, state) = pair.split_once(" state ")?;
    Some((node.parse().ok()?, state.parse().ok()?))
}

/// The text that shows a path.
fn path_text(pairs: &[Pair], back: u64) -> String {
    let numbered = pairs.iter().zip(1..);
    let lines = numbered.map(|((node, state), i)| format!("pair {i}: node {node} state {state}\n"));
    let text: String = lines.collect();
    text + &format!("the last pair goes back to pair {back}\n")
}

/// The refusal that a text of one line says, in whatever words it gives its reason.
pub fn refusal_in(text: &str) -> Option<Refusal> {
    let line = text
        .strip_suffix('\n')
        .filter(|line| !line.contains('\n'))?;
    let said = line.strip_prefix("refused: ")?;
    let Some(asked) = said.strip_prefix("question ") else {
        return Some(Refusal::of(0));
    };
    let (asked, _) = asked.split_once(": ")?;
    let (question, sheet) = match asked.split_once(' ') {
        None => (asked, 0),
        Some((question, "of the first machine sheet")) => (question, 1),
        Some((question, "of the second machine sheet")) => (question, 2),
        Some(_) => return None,
    };
    let question = question.parse().ok()?;
    Some(Refusal { question, sheet })
}

#[cfg(test)]
mod tests {
    use super::*;
    use crate::program::bytes;
    use crate::worked;

    fn read(machine: Vec<u16>, rules: Vec<u16>) -> Result<Model, Refusal> {
        model(&bytes(&[machine, rules].concat()))
    }

    #[test]
    fn marked_cases_e_and_k_as_texts() {
        let even = read(worked::m3(), worked::even()).expect("accepted sheets");
        let text = "line 1: true at 1 of 2 nodes: 1\n\
                    line 2: true at 1 of 2 nodes: 1\n\
                    the rule is kept: it is true at every start node\n\
                    true at 1 of 2 nodes, 50 percent\n";
        assert_eq!(labels(&even), text);
        let ring = read(worked::ring_of_eight(), worked::signal_alone()).expect("accepted sheets");
        let last = labels(&ring);
        assert!(
            last.ends_with("\ntrue at 1 of 8 nodes, 12 percent\n"),
            "{last}"
        );
    }

    #[test]
    fn a_line_that_is_true_nowhere_and_a_rule_that_is_not_kept() {
        let never = read(worked::m1(), worked::constant(0)).expect("accepted sheets");
        let text = "line 1: true at 0 of 1 nodes\n\
                    the rule is not kept\n\
                    true at 0 of 1 nodes, 0 percent\n";
        assert_eq!(labels(&never), text);
    }

    #[test]
    fn paths_are_read_back_and_judged() {
        let even = read(worked::m3(), worked::even());
        let asked = Asked { line: 0, node: 1 };
        let right = "pair 1: node 1 state 1\n\
                     pair 2: node 2 state 2\n\
                     the last pair goes back to pair 1\n";
        let shown = Answer::Shown { length: 2, back: 1 };
        assert_eq!(judge_path(&even, asked, right), Ok(shown));
        for wrong in [
            right.replace("pair 2: node 2", "pair 2: node 1"),
            right.replace("pair 2:", "pair 3:"),
            right.replace("state 2", "state 3"),
            right.replace("to pair 1", "to pair 2"),
            right.replace("to pair 1", "to pair 01"),
            right.trim_end().to_string(),
            "no path: the line is false at node 1\n".to_string(),
            String::new(),
        ] {
            let said = judge_path(&even, asked, &wrong);
            assert!(said.is_err(), "{wrong:?}");
        }
        let asked = Asked { line: 2, node: 2 };
        let none = "no path: the line is false at node 2\n";
        assert_eq!(judge_path(&even, asked, none), Ok(Answer::NoPath));
        assert!(judge_path(&even, asked, &none.replace('2', "1")).is_err());
    }

    #[test]
    fn refusals_are_read_back() {
        let first = "refused: question 5 of the first machine sheet: why\n";
        assert_eq!(refusal_in(first), Some(Refusal::of_machine(5, 1)));
        let rules = "refused: question 14: a reason: this\n";
        assert_eq!(refusal_in(rules), Some(Refusal::of(14)));
        assert_eq!(refusal_in("refused: odd\n"), Some(Refusal::of(0)));
        for wrong in ["refused: odd", "odd\n", "refused: question 5 of it: why\n"] {
            assert_eq!(refusal_in(wrong), None, "{wrong:?}");
        }
        assert_eq!(refusal_in(&format!("{first}{first}")), None);
    }

    #[test]
    fn odd_and_long_inputs_are_refused_by_0() {
        for length in [1, SHEETS_BYTES + 1, SHEETS_BYTES + 2] {
            assert_eq!(model(&vec![0; length]).err(), Some(Refusal::of(0)));
        }
        let first = Some(Refusal::of_machine(1, 1));
        assert_eq!(model(&vec![0; SHEETS_BYTES]).err(), first);
    }
}
