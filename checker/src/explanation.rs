//! A judge of what the explaining program prints. Which rule is written is free: its words are read back into a rule sheet, which has to
//! be a right one for the two machines, no line of it twice. The sentence before it has to be true at the same nodes of both machines as
//! the sheet's last line, and the verdict has to be what the checker's own truth says of that sheet.

use crate::compare::Both;
use crate::format::{line, operation, COMPARED_BYTES};
use crate::machine::Machine;
use crate::program::{cut, expected_output, words};
use crate::rules::Rules;
use crate::sentence;
use crate::truth::truth;
use crate::worked::written_head;
use crate::written::{judge_rule, twice};

const EQUAL: &str = "The two machines are equal: every rule is kept by both or by neither. \
                     A replacement needs no rehearsal call.\n";
const UNEQUAL: &str =
    "The two machines are unequal. One of them keeps this rule and the other does not:\n";
const LINES: &str = "Line by line:";

/// Says what is wrong with the text printed for an input. If nothing is, gives the line of the comparing program, and the reason that
/// the text gives where it is a refusal.
pub fn judge(input: &[u8], printed: &str) -> Result<(String, String), String> {
    let line = expected_output(input).trim_end().to_string();
    let said: Vec<&str> = line.split(' ').collect();
    let reason = match said[..] {
        ["refused", question, sheet] => refusal_reason(question, sheet, printed)?,
        ["unequal"] => judge_unequal(input, printed)?,
        _ if printed == EQUAL => String::new(),
        _ => return Err("equal machines are not called so".to_string()),
    };
    Ok((line, reason))
}

/// The reason that a refusal gives, once it names the question and the sheet.
fn refusal_reason(question: &str, sheet: &str, printed: &str) -> Result<String, String> {
    let place = match sheet {
        "1" => " of the first machine sheet",
        "2" => " of the second machine sheet",
        _ => "",
    };
    let head = match question {
        "0" => "refused: ".to_string(),
        _ => format!("refused: question {question}{place}: "),
    };
    let reason = printed
        .strip_prefix(&head)
        .and_then(|rest| rest.strip_suffix('\n'));
    match reason {
        Some(reason) if !reason.is_empty() && !reason.contains('\n') => Ok(reason.to_string()),
        _ => Err(format!("not a refusal by question {question}")),
    }
}

fn judge_unequal(input: &[u8], printed: &str) -> Result<String, String> {
    let words = words(input, COMPARED_BYTES).ok_or("not an input of words")?;
    let (first, second) = cut(&words);
    let both = Both::read(first, second).map_err(|_| "not a pair to compare")?;
    let said = printed
        .strip_prefix(UNEQUAL)
        .ok_or("unequal machines are not called so")?;
    let mut sentence: Vec<&str> = said.lines().collect();
    let verdict = sentence.pop().ok_or("no verdict")?;
    let heading = sentence.iter().position(|&line| line == LINES);
    let lines = sentence.split_off(heading.ok_or("no numbered lines")?);
    let sheet = sheet_of(&lines[1..])?;
    judge_rule(&both, &sheet)?;
    if let Some((above, below)) = twice(&sheet) {
        return Err(format!("lines {above} and {below} are the same"));
    }
    let rules = Rules::read(&sheet).map_err(|question| format!("refused by {question}"))?;
    judge_sentence(&both, &rules, &sentence)?;
    match verdict == verdict_on(&both, &rules)? && said.ends_with('\n') {
        true => Ok(String::new()),
        false => Err(format!("a wrong verdict: {verdict}")),
    }
}

/// The sentence is true where the last of the lines is. It refers to lines above that one, and to signals of the machines.
fn judge_sentence(both: &Both, rules: &Rules, printed: &[&str]) -> Result<(), String> {
    let sentence = sentence::read(printed)?;
    let (lines, signals) = sentence.names();
    if !lines
        .iter()
        .all(|line| (1..rules.lines.len()).contains(line))
    {
        return Err("the sentence refers to no line above the last".to_string());
    }
    if !signals.iter().all(|i| (1..=both.first.signals).contains(i)) {
        return Err("the sentence names no signal".to_string());
    }
    for machine in [&both.first, &both.second] {
        let truth = truth(machine, rules);
        if Some(&sentence.truth(machine, &truth)) != truth.last() {
            return Err("the sentence does not say the rule".to_string());
        }
    }
    Ok(())
}

/// The rule sheet of a rule in words.
fn sheet_of(lines: &[&str]) -> Result<Vec<u16>, String> {
    let mut sheet = written_head(lines.len() as u16);
    for (above, line) in lines.iter().enumerate() {
        let number = above + 1;
        let meaning = line
            .strip_prefix(&format!("{number}: "))
            .ok_or(format!("line {number} has another number"))?;
        let record = record(meaning).ok_or(format!("line {number} says: {meaning}"))?;
        sheet.extend(record);
    }
    Ok(sheet)
}

/// The record of a line in words.
fn record(meaning: &str) -> Option<[u16; line::WORDS]> {
    let number = |word: &str| word.parse::<u16>().ok();
    let said: Vec<&str> = meaning.split(' ').collect();
    match said[..] {
        ["signal", i, "is", "on"] => Some([operation::SIGNAL, number(i)?, 0, 0, 0, 0]),
        ["line", k, "does", "not", "hold"] => Some([operation::NOT, number(k)?, 0, 0, 0, 0]),
        ["line", i, "or", "line", k, "holds"] => {
            Some([operation::OR, number(i)?, number(k)?, 0, 0, 0])
        }
        ["some", "next", "node", "has", "line", k] => {
            Some([operation::SOME_PATH, 1, number(k)?, 0, 0, 0])
        }
        _ => None,
    }
}

/// The verdict on a rule that one machine keeps and the other does not.
fn verdict_on(both: &Both, rules: &Rules) -> Result<String, String> {
    let last = rules.lines.len();
    let said = |keeper: &str, breaker: &str, node: usize| {
        format!("The {keeper} machine keeps the rule, line {last}. The {breaker} breaks it at its start node {node}.")
    };
    match (
        broken_at(&both.first, rules),
        broken_at(&both.second, rules),
    ) {
        (None, Some(node)) => Ok(said("first", "second", node)),
        (Some(node), None) => Ok(said("second", "first", node)),
        _ => Err("the rule does not tell the machines apart".to_string()),
    }
}

/// The first start node, counted from 1, at which the last line is not true.
fn broken_at(machine: &Machine, rules: &Rules) -> Option<usize> {
    let truth = truth(machine, rules);
    let rule = truth.last()?;
    let broken = (0..machine.nodes()).find(|&s| machine.starts[s] && !rule[s]);
    broken.map(|s| s + 1)
}

#[cfg(test)]
mod tests {
    use super::*;
    use crate::program::bytes;
    use crate::worked;

    const NEXT_OF_SIGNAL: &str = "  some next node has: signal 1 is on\nLine by line:\n\
                                  1: signal 1 is on\n2: some next node has line 1\n";
    const FIRST_KEEPS: &str =
        "The first machine keeps the rule, line 2. The second breaks it at its start node 1.\n";

    fn judged(first: Vec<u16>, second: Vec<u16>, printed: &str) -> Result<(), String> {
        judge(&bytes(&[first, second].concat()), printed).map(|_| ())
    }

    // Both machines start where the signal is; only in M1 it is there one step later.
    #[test]
    fn a_rule_in_words_that_tells_m1_from_m3() {
        let right = format!("{UNEQUAL}{NEXT_OF_SIGNAL}{FIRST_KEEPS}");
        let judged = |printed: &str| judged(worked::m1(), worked::m3(), printed);
        assert_eq!(judged(&right), Ok(()));
        for (old, new) in [
            ("first", "second"),
            ("node 1", "node 2"),
            ("rule, line 2", "rule, line 1"),
            ("some next node has line 1", "line 1 does not hold"),
            ("has line 1", "has line 2"),
            ("signal 1", "signal 2"),
            ("has: signal 1", "has: signal 2"),
            ("has: signal 1 is on", "has: signal 1 is off"),
            ("some next node has:", "no next node has:"),
            ("has: signal 1 is on", "has line 1, and line 2 holds"),
            ("Line by line:\n", ""),
            ("1: ", "2: "),
            ("are unequal", "are equal"),
            (".\n", "."),
        ] {
            assert!(judged(&right.replace(old, new)).is_err(), "{new}");
        }
        assert!(judged(EQUAL).is_err());
    }

    #[test]
    fn the_verdict_names_the_other_machine() {
        let second_keeps = FIRST_KEEPS
            .replace("first", "third")
            .replace("second", "first")
            .replace("third", "second");
        let printed = format!("{UNEQUAL}{NEXT_OF_SIGNAL}{second_keeps}");
        assert_eq!(judged(worked::m3(), worked::m1(), &printed), Ok(()));
        assert!(judged(worked::m1(), worked::m3(), &printed).is_err());
    }

    #[test]
    fn equal_and_refused() {
        assert_eq!(judged(worked::m1(), worked::m2(), EQUAL), Ok(()));
        assert!(judged(worked::m1(), worked::m3(), EQUAL).is_err());
        let refused = "refused: question 1 of the second machine sheet: fewer than 3 words\n";
        assert_eq!(judged(worked::m1(), vec![], refused), Ok(()));
        assert!(judged(vec![0, 1, 1], worked::m1(), refused).is_err());
        assert!(judged(worked::m1(), worked::m2(), refused).is_err());
        assert_eq!(
            judge(&[1], "refused: odd\n").map(|(_, reason)| reason),
            Ok("odd".to_string())
        );
    }
}
