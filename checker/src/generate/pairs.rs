//! Pairs of a machine sheet and a rule sheet, with the spaces that labelling and path write to:
//! too short by one word, exact, longer, and never clean.

use super::damage::{any_word, MACHINE_FAULTS, RULE_FAULTS};
use super::machines::{graph, lay_out};
use super::rules::{sheet_for, Wish};
use crate::format::{rows_words, AUTOMATA, AUTOMATON_STATES, LINES, NODES, SIGNALS};
use crate::path::{Asked, Pair};
use crate::refusal::Refusal;
use crate::rng::Rng;
use crate::rules::Line;
use crate::truth::Model;

/// How large a pair is to be.
#[derive(Clone, Copy, Debug, PartialEq, Eq)]
pub enum Scale {
    Small,
    /// Up to every limit but that on lines.
    Large,
    /// As many nodes, states of an automaton and lines as there can be.
    Full,
}

/// Words of a machine sheet and of a rule sheet.
pub type Sheets = (Vec<u16>, Vec<u16>);

/// Two valid sheets, where the rule names signals of the machine alone.
pub fn valid(rng: &mut Rng, scale: Scale) -> Sheets {
    let signals = rng.between(1, SIGNALS);
    let (nodes, wish) = match scale {
        Scale::Small => (rng.between(1, 10), small_wish(rng, signals)),
        Scale::Large => (rng.between(9, NODES), large_wish(rng, signals)),
        Scale::Full => (NODES, full_wish(rng, signals)),
    };
    sheets(rng, nodes, signals, wish)
}

/// Two valid sheets so small that all paths can be tried.
pub fn tiny(rng: &mut Rng) -> Sheets {
    let signals = rng.between(1, 2);
    let nodes = rng.between(1, 3);
    let wish = Wish {
        signals,
        automata: rng.between(1, 2),
        chain: rng.between(1, 3),
        lines: rng.between(3, 9),
    };
    sheets(rng, nodes, signals, wish)
}

fn sheets(rng: &mut Rng, nodes: usize, signals: usize, wish: Wish) -> Sheets {
    let graph = graph(rng, nodes, signals);
    let machine = lay_out(rng, &graph).words();
    (machine, sheet_for(rng, wish).words())
}

fn small_wish(rng: &mut Rng, signals: usize) -> Wish {
    Wish {
        signals,
        automata: *rng.pick(&[0, 1, 1, 2, 2, 3, 3, 4]),
        chain: rng.between(2, 6),
        lines: match rng.below(4) {
            0 => rng.between(1, 5),
            _ => rng.between(6, 16),
        },
    }
}

fn large_wish(rng: &mut Rng, signals: usize) -> Wish {
    Wish {
        signals,
        automata: rng.between(1, AUTOMATA),
        chain: rng.between(4, AUTOMATON_STATES),
        lines: rng.between(2, 40),
    }
}

fn full_wish(rng: &mut Rng, signals: usize) -> Wish {
    Wish {
        signals,
        automata: rng.between(4, AUTOMATA),
        chain: AUTOMATON_STATES,
        lines: LINES - rng.below(2),
    }
}

/// A pair that is mostly valid: at times a sheet has a fault, or the rule names a signal that
/// the machine does not have.
pub fn any(rng: &mut Rng, scale: Scale) -> Sheets {
    match rng.below(12) {
        0 => damaged(rng),
        1 => with_foreign_signals(rng),
        _ => valid(rng, scale),
    }
}

fn with_foreign_signals(rng: &mut Rng) -> Sheets {
    let signals = rng.between(1, SIGNALS - 1);
    let nodes = rng.between(1, 8);
    let named = *rng.pick(&[signals + 1, SIGNALS]);
    let wish = small_wish(rng, named);
    sheets(rng, nodes, signals, wish)
}

fn damaged(rng: &mut Rng) -> Sheets {
    let nodes = rng.between(1, 8);
    let graph = graph(rng, nodes, SIGNALS);
    let mut machine = lay_out(rng, &graph);
    let wish = small_wish(rng, SIGNALS);
    let mut rules = sheet_for(rng, wish);
    if rng.chance(1, 2) {
        rng.pick(&MACHINE_FAULTS).1(rng, &mut machine);
    }
    if rng.chance(2, 3) {
        rng.pick(&RULE_FAULTS).1(rng, &mut rules);
    }
    let (mut machine, mut rules) = (machine.words(), rules.words());
    match rng.below(8) {
        0 => any_word(rng, &mut machine),
        1 => any_word(rng, &mut rules),
        2 => machine.truncate(rng.below(11)),
        3 => rules.truncate(rng.below(11)),
        _ => (),
    }
    (machine, rules)
}

/// A length around the one that is asked for.
fn room(rng: &mut Rng, asked: usize) -> usize {
    match rng.below(8) {
        0 => asked.saturating_sub(1),
        1 => rng.below(asked + 1),
        2 => asked + rng.between(1, 9),
        _ => asked,
    }
}

/// A space for the truth rows of so many lines, full of other bits.
pub fn rows_space(rng: &mut Rng, lines: usize) -> Vec<u64> {
    let length = room(rng, rows_words(lines));
    let ones = rng.chance(1, 4);
    let words = (0..length).map(|_| if ones { u64::MAX } else { rng.draw() });
    words.collect()
}

/// A line and a node to ask a path for, and a list of other pairs to write it to.
pub fn path_question(rng: &mut Rng, model: &Result<Model, Refusal>) -> (Asked, Vec<Pair>) {
    let (nodes, lines) = match model {
        Ok(model) => (model.machine.nodes(), model.rules.lines.len()),
        Err(_) => (3, 3),
    };
    let asked = Asked {
        line: asked_line(rng, model, lines),
        node: match rng.below(32) {
            0 => 0,
            1 => nodes as u64 + 1,
            2 => u64::from(u16::MAX),
            _ => rng.between(1, nodes) as u64,
        },
    };
    let length = room(rng, nodes * states_of(model, asked.line).unwrap_or(2));
    let list = (0..length).map(|_| (rng.word(), rng.word())).collect();
    (asked, list)
}

/// Mostly a path line, at times any line or one that is not there.
fn asked_line(rng: &mut Rng, model: &Result<Model, Refusal>, lines: usize) -> u64 {
    let path_lines: Vec<usize> = (1..=lines)
        .filter(|&line| states_of(model, line as u64).is_some())
        .collect();
    match rng.below(32) {
        0 => lines as u64 + 1,
        1 => u64::from(u16::MAX),
        2..=5 => 0,
        6 => rng.between(1, lines) as u64,
        _ if path_lines.is_empty() => 0,
        _ => *rng.pick(&path_lines) as u64,
    }
}

/// The number of states of the automaton of a path line, 0 standing for the last line.
fn states_of(model: &Result<Model, Refusal>, line: u64) -> Option<usize> {
    let rules = &model.as_ref().ok()?.rules;
    let number = if line == 0 {
        rules.lines.len()
    } else {
        usize::try_from(line).ok()?
    };
    match rules.lines.get(number.checked_sub(1)?)? {
        Line::SomePath { automaton, .. } => Some(rules.automata[*automaton].numbers.len()),
        _ => None,
    }
}

#[cfg(test)]
mod tests {
    use super::*;
    use crate::coverage::Coverage;
    use crate::labelling::{label, Labelling};

    fn note_truth(coverage: &mut Coverage, model: &Model) {
        for (line, row) in model.rules.lines.iter().zip(&model.truth) {
            let kind = match line {
                Line::SomePath { accepting, .. } if *accepting => "operation 3",
                Line::SomePath { .. } => "operation 4",
                _ => "no path line",
            };
            let somewhere = row.contains(&true);
            let everywhere = !row.contains(&false);
            coverage.note(&match (somewhere, everywhere) {
                (_, true) => format!("{kind}, true everywhere"),
                (true, false) => format!("{kind}, true at some nodes alone"),
                (false, false) => format!("{kind}, true nowhere"),
            });
        }
    }

    // What a path line says must depend on the node often, or wrong rows would pass.
    #[test]
    fn pairs_reach_every_answer() {
        let mut coverage = Coverage::new();
        for case in 0..4_000 {
            let mut rng = Rng::for_case(32, case);
            let scale = match case % 400 {
                0 => Scale::Full,
                1..=16 => Scale::Large,
                _ => Scale::Small,
            };
            let (machine, rules) = any(&mut rng, scale);
            let model = Model::read(&machine, &rules);
            let lines = model.as_ref().map_or(3, |model| model.rules.lines.len());
            let mut space = rows_space(&mut rng, lines);
            coverage.note(&match label(&model, &mut space) {
                Labelling::Refused(refusal) => format!("refused by {}", refusal.question),
                Labelling::Done { kept: true, .. } => "kept".to_string(),
                Labelling::Done { kept: false, .. } => "not kept".to_string(),
            });
            if let Ok(model) = model {
                note_truth(&mut coverage, &model);
            }
        }
        for event in ["kept", "not kept", "refused by 17", "refused by 16"] {
            coverage.require(event, 150);
        }
        for operation in ["operation 3", "operation 4"] {
            for truth in ["everywhere", "nowhere", "at some nodes alone"] {
                coverage.require(&format!("{operation}, true {truth}"), 1_000);
            }
        }
    }
}
