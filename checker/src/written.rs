//! A judge of written rules. Which rule is written is free; it has the fixed head, is accepted by
//! the questions of labelling, and is kept by exactly one of the two machines, by the checker's
//! own truth.

use crate::compare::Both;
use crate::format::{line, operation, rule_header, written_words, WRITTEN_HEAD};
use crate::rules::Rules;
use crate::truth::{keeps, truth};
use crate::worked::written_head;

/// Says what is wrong with the rule at the head of a space; gives its length if nothing is.
pub fn judge_rule(both: &Both, space: &[u16]) -> Result<usize, String> {
    let sheet = written_sheet(both, space)?;
    let rules = Rules::read(sheet).map_err(|question| format!("refused by {question}"))?;
    if rules.highest_signal() > both.first.signals {
        return Err("refused by 16".to_string());
    }
    let first = keeps(&both.first, &truth(&both.first, &rules));
    let second = keeps(&both.second, &truth(&both.second, &rules));
    match (first, second) {
        (true, true) => Err("both machines keep the rule".to_string()),
        (false, false) => Err("neither machine keeps the rule".to_string()),
        _ => Ok(sheet.len()),
    }
}

/// Two lines of the rule at the head of a space that say the same of the same lines, if there are any; an "or" says the same either
/// way round. No written rule has such lines.
pub fn twice(space: &[u16]) -> Option<(usize, usize)> {
    let lines = usize::from(*space.get(rule_header::LINES)?);
    let records = space
        .get(WRITTEN_HEAD..written_words(lines))?
        .chunks_exact(line::WORDS);
    let mut said: Vec<Vec<u16>> = Vec::new();
    for (above, record) in records.enumerate() {
        let mut record = record.to_vec();
        if record[line::OPERATION] == operation::OR {
            record[line::ONE..=line::OTHER].sort_unstable();
        }
        if let Some(before) = said.iter().position(|other| *other == record) {
            return Some((before + 1, above + 1));
        }
        said.push(record);
    }
    None
}

/// The words of the sheet, once its head is right and its lines are few enough.
fn written_sheet<'a>(both: &Both, space: &'a [u16]) -> Result<&'a [u16], String> {
    let lines = *space
        .get(rule_header::LINES)
        .ok_or("no room for a header")?;
    if !(1..=both.most_lines()).contains(&usize::from(lines)) {
        return Err(format!("{lines} lines"));
    }
    let length = written_words(usize::from(lines));
    let sheet = space.get(..length).ok_or("the rule does not fit")?;
    match sheet[..WRITTEN_HEAD] == written_head(lines) {
        true => Ok(sheet),
        false => Err("the head is not the fixed one".to_string()),
    }
}

#[cfg(test)]
mod tests {
    use super::*;
    use crate::compare::{judge, Answer};
    use crate::coverage::Coverage;
    use crate::generate::machine_pairs;
    use crate::partition::Refinement;
    use crate::rng::Rng;
    use crate::worked;

    fn m1_and_m3() -> Both {
        Both::read(&worked::m1(), &worked::m3()).expect("a pair to compare")
    }

    fn rule(lines: &[[u16; line::WORDS]]) -> Vec<u16> {
        let mut words = written_head(lines.len() as u16);
        words.extend(lines.iter().flatten());
        words
    }

    const SIGNAL: [u16; line::WORDS] = [operation::SIGNAL, 1, 0, 0, 0, 0];
    const NEXT_OF_FIRST: [u16; line::WORDS] = [operation::SOME_PATH, 1, 1, 0, 0, 0];

    // Both machines start where the signal is; only in M1 it is there one step later.
    #[test]
    fn a_rule_that_tells_m1_from_m3() {
        let words = rule(&[SIGNAL, NEXT_OF_FIRST]);
        assert_eq!(judge_rule(&m1_and_m3(), &words), Ok(words.len()));
        let negated = rule(&[SIGNAL, NEXT_OF_FIRST, [1, 2, 0, 0, 0, 0]]);
        assert_eq!(judge_rule(&m1_and_m3(), &negated), Ok(negated.len()));
    }

    // The choice of M5: a next node where both signals can come next.
    #[test]
    fn a_rule_that_tells_m5_from_m6() {
        let both = Both::read(&worked::m5(), &worked::m6()).expect("a pair to compare");
        let words = rule(&[
            SIGNAL,
            [0, 2, 0, 0, 0, 0],
            [3, 1, 1, 0, 0, 0],
            [3, 1, 2, 0, 0, 0],
            [1, 3, 0, 0, 0, 0],
            [1, 4, 0, 0, 0, 0],
            [2, 5, 6, 0, 0, 0],
            [1, 7, 0, 0, 0, 0],
            [3, 1, 8, 0, 0, 0],
        ]);
        assert_eq!(judge_rule(&both, &words), Ok(words.len()));
    }

    #[test]
    fn what_is_wrong_is_named() {
        let right = rule(&[SIGNAL, NEXT_OF_FIRST]);
        let say = |words: &[u16]| judge_rule(&m1_and_m3(), words).expect_err("a wrong rule");
        assert_eq!(say(&rule(&[SIGNAL])), "both machines keep the rule");
        let never = rule(&[SIGNAL, [1, 1, 0, 0, 0, 0]]);
        assert_eq!(say(&never), "neither machine keeps the rule");
        let own_line = rule(&[SIGNAL, [1, 2, 0, 0, 0, 0]]);
        assert_eq!(say(&own_line), "refused by 15");
        let foreign_signal = rule(&[SIGNAL, [0, 2, 0, 0, 0, 0], NEXT_OF_FIRST]);
        assert_eq!(say(&foreign_signal), "refused by 16");
        assert_eq!(say(&right[..right.len() - 1]), "the rule does not fit");
        assert_eq!(say(&[]), "no room for a header");
        for place in (0..WRITTEN_HEAD).filter(|&place| place != rule_header::LINES) {
            let mut words = right.clone();
            words[place] ^= 1;
            assert_eq!(say(&words), "the head is not the fixed one", "word {place}");
        }
        let most = m1_and_m3().most_lines();
        let mut lines = vec![SIGNAL; most - 1];
        lines.push(NEXT_OF_FIRST);
        assert!(judge_rule(&m1_and_m3(), &rule(&lines)).is_ok());
        lines.insert(0, SIGNAL);
        assert_eq!(say(&rule(&lines)), format!("{} lines", most + 1));
    }

    #[test]
    fn a_line_that_stands_twice() {
        let either = |i: u16, k: u16| [operation::OR, i, k, 0, 0, 0];
        let second = [0, 2, 0, 0, 0, 0];
        assert_eq!(twice(&rule(&[SIGNAL, second, either(1, 2)])), None);
        assert_eq!(twice(&rule(&[SIGNAL, second, SIGNAL])), Some((1, 3)));
        let turned = rule(&[SIGNAL, second, either(1, 2), either(2, 1)]);
        assert_eq!(twice(&turned), Some((3, 4)));
        assert_eq!(twice(&[1, 4, 5]), None);
    }

    #[test]
    fn rules_of_the_refinement_are_right_and_damaged_ones_are_not() {
        let mut coverage = Coverage::new();
        for case in 0..3_000 {
            let mut rng = Rng::for_case(61, case);
            let pair = machine_pairs::any(&mut rng);
            let Ok(both) = Both::read(&pair.first, &pair.second) else {
                continue;
            };
            let before = vec![rng.word(); both.room() + 3];
            let Some(rule) = Refinement::of(&both).telling_apart(&both) else {
                let judged = judge(&pair.first, &pair.second, &before, Answer::Equal, &before);
                assert_eq!(judged, Ok(()), "case {case}");
                continue;
            };
            let mut after = before.clone();
            after[..rule.len()].copy_from_slice(&rule);
            let judged = judge(&pair.first, &pair.second, &before, Answer::Unequal, &after);
            assert_eq!(judged, Ok(()), "case {case}");
            after[rule.len()] ^= 1;
            let judged = judge(&pair.first, &pair.second, &before, Answer::Unequal, &after);
            assert!(judged.is_err(), "case {case}");
            coverage.note("a word past the rule");
            let mut denied = before.clone();
            denied[..rule.len()].copy_from_slice(&rule);
            denied[rule.len() - line::WORDS..rule.len()].copy_from_slice(&SIGNAL);
            let judged = judge(&pair.first, &pair.second, &before, Answer::Unequal, &denied);
            coverage.note(if judged.is_err() {
                "another last line"
            } else {
                "as good"
            });
        }
        coverage.require("a word past the rule", 600);
        coverage.require("another last line", 300);
    }
}
