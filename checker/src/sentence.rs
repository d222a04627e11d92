//! The sentence that the explaining program says first, read back: what follows a colon, to the end of its line or in the lines set in
//! below it, belongs to it, and parts are joined by "and". Its truth at a node is found here, without the numbered lines but for those
//! that it refers to.

use crate::machine::Machine;

/// The limits of the printed sentence.
pub const COLUMNS: usize = 100;
pub const LINES: usize = 40;
/// Each level is two blanks; the whole sentence is set in by one.
pub const LEVELS: usize = 11;

/// A part of the sentence, or all of it.
#[derive(Clone, Debug, PartialEq, Eq)]
pub enum Part {
    /// All of these signals are on, or all are off.
    Signals(Vec<usize>, bool),
    /// A numbered line holds, or does not.
    Line(usize, bool),
    /// Some next node has the part.
    Next(Box<Part>),
    Not(Box<Part>),
    And(Vec<Part>),
}

impl Part {
    /// At which nodes the part is true, given where the numbered lines are.
    pub fn truth(&self, machine: &Machine, lines: &[Vec<bool>]) -> Vec<bool> {
        let nodes = 0..machine.nodes();
        match self {
            Part::Signals(signals, on) => nodes
                .map(|s| {
                    let mut each = signals.iter();
                    each.all(|i| (machine.labels[s] >> (i - 1) & 1 == 1) == *on)
                })
                .collect(),
            Part::Line(line, holds) => lines[line - 1].iter().map(|&at| at == *holds).collect(),
            Part::Next(part) => {
                let inside = part.truth(machine, lines);
                let some = |s: usize| machine.successors[s].iter().any(|&t| inside[t]);
                nodes.map(some).collect()
            }
            Part::Not(part) => part.truth(machine, lines).iter().map(|at| !at).collect(),
            Part::And(parts) => {
                let rows: Vec<Vec<bool>> = parts.iter().map(|p| p.truth(machine, lines)).collect();
                nodes.map(|s| rows.iter().all(|row| row[s])).collect()
            }
        }
    }

    /// The numbered lines and the signals that the part speaks of.
    pub fn names(&self) -> (Vec<usize>, Vec<usize>) {
        match self {
            Part::Signals(signals, _) => (vec![], signals.clone()),
            Part::Line(line, _) => (vec![*line], vec![]),
            Part::Next(part) | Part::Not(part) => part.names(),
            Part::And(parts) => {
                let (lines, signals): (Vec<_>, Vec<_>) = parts.iter().map(Part::names).unzip();
                (lines.concat(), signals.concat())
            }
        }
    }
}

/// Reads a sentence, within the limits.
pub fn read(printed: &[&str]) -> Result<Part, String> {
    if printed.len() > LINES {
        return Err(format!("a sentence of {} lines", printed.len()));
    }
    let mut lines = Vec::new();
    for line in printed {
        let text = line.trim_start_matches(' ');
        let blanks = line.len() - text.len();
        if line.len() > COLUMNS || blanks % 2 == 1 || blanks / 2 > LEVELS {
            return Err(format!("too long, or set in too far: {line}"));
        }
        lines.push((blanks / 2, text));
    }
    let mut rest = &lines[..];
    let whole = block(&mut rest, 1)?;
    match rest.first() {
        None => Ok(whole),
        Some((_, text)) => Err(format!("left over: {text}")),
    }
}

/// The parts at a level: the first line begins one, and each further one begins with "and", after a comma.
fn block(rest: &mut &[(usize, &str)], level: usize) -> Result<Part, String> {
    let mut parts = Vec::new();
    loop {
        let Some(&(at, text)) = rest.first() else {
            return Err("a part is missing".to_string());
        };
        if at != level {
            return Err(format!("at another level: {text}"));
        }
        let text = match parts.is_empty() {
            true => text,
            false => text.strip_prefix("and ").ok_or("no \"and\"")?,
        };
        *rest = &rest[1..];
        // A comma ends each line but one that ends with a colon, and the last.
        let (text, comma) = text.strip_suffix(',').map_or((text, false), |t| (t, true));
        if comma == (text.ends_with(':') || rest.is_empty()) {
            return Err(format!("a comma too many, or one that is missing: {text}"));
        }
        parts.extend(in_line(text, rest, level)?);
        if rest.first().map_or(0, |&(at, _)| at) < level {
            return Ok(Part::And(parts));
        }
    }
}

/// The parts in one line; a colon takes all that follows in it, or, at its end, the block below it.
fn in_line(text: &str, rest: &mut &[(usize, &str)], level: usize) -> Result<Vec<Part>, String> {
    for (words, some, not) in [
        ("some next node has:", true, false),
        ("no next node has:", true, true),
        ("not:", false, true),
    ] {
        if let Some(after) = text.strip_prefix(words) {
            let inside = match after.strip_prefix(' ') {
                Some(after) => Part::And(in_line(after, rest, level)?),
                None if after.is_empty() => block(rest, level + 1)?,
                None => return Err(format!("no blank: {text}")),
            };
            let part = match some {
                true => Part::Next(Box::new(inside)),
                false => inside,
            };
            return Ok(vec![match not {
                true => Part::Not(Box::new(part)),
                false => part,
            }]);
        }
    }
    match text.split_once(", and ") {
        Some((first, after)) => {
            let mut parts = leaf(first)?;
            parts.extend(in_line(after, rest, level)?);
            Ok(parts)
        }
        None => leaf(text),
    }
}

/// A part without a colon.
fn leaf(text: &str) -> Result<Vec<Part>, String> {
    let wrong = || format!("not a part: {text}");
    let number = |word: &str| word.parse::<usize>().map_err(|_| wrong());
    let next = |part: Part| Part::Next(Box::new(part));
    let said: Vec<&str> = text.split(' ').collect();
    let part = match said[..] {
        ["signal", i, "is", "on"] => Part::Signals(vec![number(i)?], true),
        ["signal", i, "is", "off"] => Part::Signals(vec![number(i)?], false),
        ["neither", "signal", i, "nor", "signal", k, "is", "on"] => {
            Part::Signals(vec![number(i)?, number(k)?], false)
        }
        ["signals", .., "and", last, "are", state @ ("on" | "off")] => {
            let listed = said[1..said.len() - 4].join(" ");
            let mut signals = Vec::new();
            for i in listed.split(", ") {
                signals.push(number(i)?);
            }
            signals.push(number(last)?);
            Part::Signals(signals, state == "on")
        }
        ["line", k, "holds"] => Part::Line(number(k)?, true),
        ["line", k, "does", "not", "hold"] => Part::Line(number(k)?, false),
        ["line", k, "holds", "and", "does", "not", "hold"] => Part::And(vec![
            Part::Line(number(k)?, true),
            Part::Line(number(k)?, false),
        ]),
        ["some", "next", "node", "has", "line", k] => next(Part::Line(number(k)?, true)),
        ["no", "next", "node", "has", "line", k] => {
            Part::Not(Box::new(next(Part::Line(number(k)?, true))))
        }
        _ => return Err(wrong()),
    };
    Ok(vec![part])
}

#[cfg(test)]
mod tests {
    use super::*;
    use crate::worked;

    fn truth_on(words: Vec<u16>, printed: &[&str]) -> Vec<bool> {
        let machine = Machine::read(&words).expect("a machine");
        read(printed).expect("a sentence").truth(&machine, &[])
    }

    #[test]
    fn in_one_line_and_in_several() {
        let one = ["  not: signal 1 is on, and some next node has: signal 1 is on"];
        let several = [
            "  not:",
            "    signal 1 is on,",
            "    and some next node has:",
            "      signal 1 is on",
        ];
        for printed in [&one[..], &several[..]] {
            assert_eq!(truth_on(worked::m1(), printed), [false]);
            assert_eq!(truth_on(worked::m3(), printed), [true, true]);
        }
    }

    // Node 2 of M5 leads to both signals; no node of M6 does.
    #[test]
    fn parts_after_a_block() {
        let printed = [
            "  some next node has:",
            "    neither signal 1 nor signal 2 is on,",
            "    and some next node has:",
            "      signal 1 is on, and signal 2 is off,",
            "    and some next node has: signal 2 is on,",
            "  and signals 1 and 2 are off",
        ];
        assert_eq!(
            truth_on(worked::m5(), &printed),
            [true, false, false, false]
        );
        assert_eq!(truth_on(worked::m6(), &printed), [false; 5]);
    }

    #[test]
    fn a_colon_takes_the_rest_of_its_line() {
        let part = read(&["  no next node has: signal 1 is on, and signal 2 is off"]);
        let inside = Part::And(vec![
            Part::Signals(vec![1], true),
            Part::Signals(vec![2], false),
        ]);
        let none = Part::Not(Box::new(Part::Next(Box::new(inside))));
        assert_eq!(part, Ok(Part::And(vec![none])));
        let several = read(&["  signals 1, 3 and 16 are off"]);
        let off = Part::Signals(vec![1, 3, 16], false);
        assert_eq!(several, Ok(Part::And(vec![off])));
    }

    #[test]
    fn what_is_no_sentence() {
        for wrong in [
            &["  signal 1 is on", "  and signal 2 is on"][..],
            &["  signal 1 is on,", "  signal 2 is on"],
            &["  signal 1 is on,"],
            &["  not:", "  signal 1 is on"],
            &["  not:"],
            &["signal 1 is on"],
            &["  signal 1 is"],
            &[],
            &["  not: signal 1 is on", "    and signal 2 is on"],
        ] {
            assert!(read(wrong).is_err(), "{wrong:?}");
        }
        let long = format!("  signals {}1 and 2 are on", "1, ".repeat(30));
        assert!(read(&[&long]).is_err());
        let many = vec!["  and signal 1 is on,"; 41];
        assert!(read(&many).is_err());
    }
}
