//! Valid rule sheets. Automata are drawn as step tables, which makes them deterministic and total
//! from the start; acceptance is chosen once for each strong component, which is condition 1.
//! Then states and edges are laid out as records, with tails of state chains shared between
//! automata, tails of edge chains between states, edges with mask zero, and records on nobody's
//! chain.

use super::chains::{Chains, Numbers};
use super::{size, RuleSheet};
use crate::components::strong_components;
use crate::format::{
    automaton, line, operation, rule_header, AUTOMATA, AUTOMATON_STATES, LINES, SIGNALS, STATES,
    TRANSITIONS, VARIABLES,
};
use crate::rng::Rng;

/// What a sheet is to be like.
#[derive(Clone, Copy, Debug)]
pub struct Wish {
    /// The highest signal number that a line may name.
    pub signals: usize,
    pub automata: usize,
    /// The most states of one automaton. One more than the limit is allowed here, for a sheet
    /// that is to be refused for it.
    pub chain: usize,
    pub lines: usize,
}

impl Wish {
    pub fn random(rng: &mut Rng, signals: usize) -> Wish {
        Wish {
            signals,
            automata: size(rng, 0, AUTOMATA),
            chain: if rng.chance(1, 3) {
                rng.between(1, AUTOMATON_STATES)
            } else {
                size(rng, 1, AUTOMATON_STATES)
            },
            lines: if rng.chance(1, 4) {
                size(rng, 1, LINES)
            } else {
                rng.between(1, 12)
            },
        }
    }
}

/// A valid sheet of any shape and size.
pub fn rule_sheet(rng: &mut Rng) -> RuleSheet {
    let wish = Wish::random(rng, SIGNALS);
    sheet_for(rng, wish)
}

/// A sheet as wished. It is valid unless the wish goes past a limit.
pub fn sheet_for(rng: &mut Rng, wish: Wish) -> RuleSheet {
    let plan = Plan::draw(rng, wish);
    let mut sheet = lay_out(rng, &plan);
    let variables: Vec<usize> = sheet
        .automata
        .iter()
        .map(|record| record[automaton::VARIABLES].into())
        .collect();
    sheet.lines = (1..=wish.lines)
        .map(|number| line(rng, number, wish.signals, &variables))
        .collect();
    sheet.header[rule_header::LINES] = wish.lines as u16;
    sheet
}

/// A state to be laid out. States count from 0 over all automata, and each comes after the one
/// that is next on its chain.
#[derive(Clone, Debug)]
struct State {
    accepting: bool,
    /// The state that follows, by valuation.
    step: Vec<usize>,
    /// Targets of edges with mask zero.
    idle: Vec<usize>,
    next: Option<usize>,
}

impl State {
    /// The edges out of the state: target and mask, no target twice.
    fn edges(&self) -> Vec<(usize, u16)> {
        let mut edges: Vec<(usize, u16)> = Vec::new();
        for (valuation, &target) in self.step.iter().enumerate() {
            match edges.iter_mut().find(|edge| edge.0 == target) {
                Some(edge) => edge.1 |= 1 << valuation,
                None => edges.push((target, 1 << valuation)),
            }
        }
        for &target in &self.idle {
            if edges.iter().all(|edge| edge.0 != target) {
                edges.push((target, 0));
            }
        }
        edges
    }
}

/// How the steps of an automaton are drawn: the cycles they make, and how soon they decide.
#[derive(Clone, Copy)]
enum Style {
    /// To any state.
    Any,
    /// To a few states.
    Few,
    /// Never backwards.
    Onward,
    /// To the state itself, or anywhere after.
    Resting,
    /// Through all new states in one ring, whose only cycle is long.
    Ring,
    /// In a ring that some valuations leave for a last state.
    Watching,
    /// Mostly to one of two last states, so that the first nodes of a path decide.
    Deciding,
}

/// Those whose lines hold at some nodes alone come more often.
const STYLES: [Style; 14] = [
    Style::Any,
    Style::Few,
    Style::Onward,
    Style::Onward,
    Style::Resting,
    Style::Resting,
    Style::Ring,
    Style::Watching,
    Style::Watching,
    Style::Watching,
    Style::Deciding,
    Style::Deciding,
    Style::Deciding,
    Style::Deciding,
];

impl Style {
    /// The place that follows one of the new states, which are the first `fresh` on a chain with
    /// the given last place.
    fn step(self, rng: &mut Rng, place: usize, fresh: usize, last: usize, few: &[usize]) -> usize {
        let sink = fresh - 1;
        match self {
            Style::Any => rng.between(0, last),
            Style::Few => *rng.pick(few),
            Style::Onward => rng.between(place, last),
            Style::Resting if rng.chance(1, 2) => place,
            Style::Resting => rng.between(place, last),
            Style::Ring => (place + 1) % fresh,
            Style::Watching if place == sink => sink,
            Style::Watching if rng.chance(1, 3) => sink,
            Style::Watching => (place + 1) % sink,
            Style::Deciding if place == sink => sink,
            Style::Deciding if place == 0 && rng.chance(2, 3) => rng.between(sink.min(1), sink),
            Style::Deciding if place + 1 == sink => place,
            Style::Deciding => *rng.pick(&[sink, sink - 1, place + 1]),
        }
    }
}

/// Automata to be laid out: variables and first state of each.
#[derive(Clone, Debug, Default)]
struct Plan {
    automata: Vec<(usize, usize)>,
    states: Vec<State>,
}

impl Plan {
    fn draw(rng: &mut Rng, wish: Wish) -> Plan {
        let mut plan = Plan::default();
        for _ in 0..wish.automata {
            let longer = plan.with_another(rng, wish.chain);
            if longer.fits() {
                plan = longer;
            }
        }
        rng.shuffle(&mut plan.automata);
        plan
    }

    fn fits(&self) -> bool {
        let edges: usize = self.states.iter().map(|state| state.edges().len()).sum();
        self.states.len() <= STATES && edges <= TRANSITIONS
    }

    /// The plan with one automaton more: a new one, one in front of another's chain, which it
    /// then has as its tail, or another's first state once more.
    fn with_another(&self, rng: &mut Rng, longest: usize) -> Plan {
        let mut plan = self.clone();
        let tail = match self.automata.len() {
            0 => None,
            count if rng.chance(1, 4) => Some(self.automata[rng.below(count)]),
            _ => None,
        };
        match tail {
            Some((variables, first)) => plan.extend(rng, variables, Some(first), longest),
            None => {
                let variables = *rng.pick(&[0, 1, 1, 2, 2, 3, 3, VARIABLES]);
                plan.extend(rng, variables, None, longest);
            }
        }
        plan
    }

    fn chain(&self, first: Option<usize>) -> Vec<usize> {
        std::iter::successors(first, |&state| self.states[state].next).collect()
    }

    fn extend(&mut self, rng: &mut Rng, variables: usize, tail: Option<usize>, longest: usize) {
        let tail_states = self.chain(tail);
        let room = longest.saturating_sub(tail_states.len());
        let fresh = match tail {
            Some(_) => rng.between(0, room),
            None if rng.chance(1, 2) => longest,
            None if rng.chance(3, 4) => rng.between(longest.min(2), longest),
            None => rng.between(1, longest),
        };
        let from = self.states.len();
        let mut chain: Vec<usize> = (from..from + fresh).rev().collect();
        chain.extend(&tail_states);
        let style = *rng.pick(&STYLES);
        let last = chain.len() - 1;
        for place in (0..fresh).rev() {
            let few: Vec<usize> = (0..3).map(|_| rng.between(0, last)).collect();
            let steps: Vec<usize> = (0..1 << variables)
                .map(|_| style.step(rng, place, fresh, last, &few))
                .collect();
            let state = State {
                accepting: false,
                step: steps.iter().map(|&place| chain[place]).collect(),
                idle: idle_targets(rng, &chain),
                next: chain.get(place + 1).copied(),
            };
            self.states.push(state);
        }
        self.accept_by_component(rng, from);
        self.automata.push((variables, chain[0]));
    }

    /// Chooses acceptance for the states from `from` on. Older states never lead to newer ones,
    /// so that the components among the new states are whole.
    fn accept_by_component(&mut self, rng: &mut Rng, from: usize) {
        let count = self.states.len() - from;
        let fresh: Vec<Vec<usize>> = self.states[from..]
            .iter()
            .map(|state| {
                state
                    .step
                    .iter()
                    .filter_map(|q| q.checked_sub(from))
                    .collect()
            })
            .collect();
        let component = strong_components(count, |q, i| fresh[q].get(i).copied());
        let kind = kinds(rng, &fresh, &component);
        for (state, &c) in self.states[from..].iter_mut().zip(&component) {
            state.accepting = kind[c];
        }
    }
}

/// Whether the states of each component accept. Those that can recur mostly differ by turns, since
/// an automaton accepts everything or nothing where they are all of one kind.
fn kinds(rng: &mut Rng, graph: &[Vec<usize>], component: &[usize]) -> Vec<bool> {
    let mut recurs = vec![false; graph.len()];
    for (state, targets) in graph.iter().enumerate() {
        let own = component[state];
        recurs[own] |= targets.iter().any(|&target| component[target] == own);
    }
    let by_turns = rng.chance(3, 4);
    let mut turn = rng.chance(1, 2);
    let kind = |recurs: bool| match by_turns && recurs {
        true => {
            turn = !turn;
            turn
        }
        false => rng.chance(1, 2),
    };
    recurs.into_iter().map(kind).collect()
}

fn idle_targets(rng: &mut Rng, chain: &[usize]) -> Vec<usize> {
    let count = if rng.chance(1, 4) {
        rng.between(1, 3)
    } else {
        0
    };
    (0..count).map(|_| *rng.pick(chain)).collect()
}

/// Lays automata out as records; lines are left out.
fn lay_out(rng: &mut Rng, plan: &Plan) -> RuleSheet {
    let (state_strays, edge_strays) = stray_counts(rng, plan);
    let states = state_chains(rng, plan, state_strays);
    let state_numbers = states.number(rng);
    let automata = plan.automata.iter();
    let automata = automata.map(|&(v, first)| [v as u16, state_numbers.of(first)]);
    let mut edges = Chains::new();
    let firsts = edge_chains(rng, plan, &state_numbers, &mut edges);
    for _ in 0..edge_strays {
        let target = rng.between(1, states.len()) as u16;
        let mask = rng.word();
        edges.add_stray(rng, (target, mask));
    }
    let edge_numbers = edges.number(rng);
    let edge_record = |&place: &usize| {
        let (target, mask) = edges.content(place);
        [target, mask, edges.link(&edge_numbers, place)]
    };
    let state_record = |&place: &usize| {
        let first = match firsts.get(place) {
            Some(&first) => edge_numbers.of(first),
            None => rng.between(1, edges.len()) as u16,
        };
        [
            states.content(place),
            first,
            states.link(&state_numbers, place),
        ]
    };
    RuleSheet {
        header: [plan.automata.len(), states.len(), edges.len(), 0].map(|word| word as u16),
        automata: automata.collect(),
        states: state_numbers.in_order().iter().map(state_record).collect(),
        edges: edge_numbers.in_order().iter().map(edge_record).collect(),
        lines: Vec::new(),
    }
}

/// How many states and edges to add that are on nobody's chain. States cannot stand without edges,
/// nor edges without states.
fn stray_counts(rng: &mut Rng, plan: &Plan) -> (usize, usize) {
    let edges: usize = plan.states.iter().map(|state| state.edges().len()).sum();
    let (state_room, edge_room) = (STATES - plan.states.len(), TRANSITIONS - edges);
    let (states, edges) = match rng.below(24) {
        0 => (rng.between(1, 4), rng.between(1, 4)),
        1 if !plan.states.is_empty() => (0, rng.between(1, 4)),
        2 if rng.chance(1, 8) => (state_room, edge_room),
        _ => (0, 0),
    };
    (states.min(state_room), edges.min(edge_room))
}

/// The states' chains, where a state keeps its place and strays follow. The content is whether
/// the state accepts.
fn state_chains(rng: &mut Rng, plan: &Plan, strays: usize) -> Chains<u16> {
    let mut chains = Chains::new();
    for state in &plan.states {
        chains.add(u16::from(state.accepting), state.next);
    }
    for _ in 0..strays {
        let accepting = rng.below(2) as u16;
        chains.add_stray(rng, accepting);
    }
    chains
}

fn edge_chains(
    rng: &mut Rng,
    plan: &Plan,
    numbers: &Numbers,
    chains: &mut Chains<(u16, u16)>,
) -> Vec<usize> {
    let shared = rng.chance(1, 2);
    let sorted = rng.chance(1, 2);
    let first = |state: &State| {
        let edges = state.edges();
        let mut contents: Vec<(u16, u16)> = edges
            .iter()
            .map(|&(target, mask)| (numbers.of(target), mask))
            .collect();
        if sorted {
            contents.sort_unstable();
        } else {
            rng.shuffle(&mut contents);
        }
        chains.add_chain(&contents, shared)
    };
    plan.states.iter().filter_map(first).collect()
}

/// A line that question 15 accepts at the given place, over automata with the given variables.
pub fn line(
    rng: &mut Rng,
    number: usize,
    signals: usize,
    variables: &[usize],
) -> [u16; line::WORDS] {
    let mut record = [0; line::WORDS];
    record[line::OPERATION] = operation(rng, number, variables);
    let above = |rng: &mut Rng| line_above(rng, number);
    match record[line::OPERATION] {
        operation::SIGNAL => record[line::SIGNAL] = rng.between(1, signals) as u16,
        operation::NOT => record[line::ONE] = above(rng),
        operation::OR => {
            record[line::ONE..=line::OTHER].copy_from_slice(&[above(rng), above(rng)]);
        }
        _ => {
            let automaton = fitting_automaton(rng, number, variables);
            record[line::AUTOMATON] = automaton as u16 + 1;
            for word in &mut record[line::ARGUMENTS..][..variables[automaton]] {
                *word = above(rng);
            }
        }
    }
    record
}

/// One of the latest lines, so that the last depends on many; one of the first, where signals
/// are, since most lines further down hold everywhere or nowhere; or any.
fn line_above(rng: &mut Rng, number: usize) -> u16 {
    let last = number - 1;
    let line = match rng.below(8) {
        0 | 1 => rng.between(last.saturating_sub(5).max(1), last),
        2..=6 => rng.between(1, last.min(4)),
        _ => rng.between(1, last),
    };
    line as u16
}

fn operation(rng: &mut Rng, number: usize, variables: &[usize]) -> u16 {
    let without_arguments = variables.contains(&0);
    let path_lines = !variables.is_empty() && (number > 1 || without_arguments);
    match rng.below(8) {
        0..=5 if number <= 3 => operation::SIGNAL,
        0 | 1 if number <= 8 || rng.chance(1, 4) => operation::SIGNAL,
        2 if number > 1 => operation::NOT,
        3 if number > 1 => operation::OR,
        _ if path_lines => *rng.pick(&[operation::SOME_PATH, operation::SOME_PATH_NOT]),
        _ if number > 1 => *rng.pick(&[operation::NOT, operation::OR]),
        _ => operation::SIGNAL,
    }
}

fn fitting_automaton(rng: &mut Rng, number: usize, variables: &[usize]) -> usize {
    loop {
        let automaton = rng.below(variables.len());
        if number > 1 || variables[automaton] == 0 {
            return automaton;
        }
    }
}

#[cfg(test)]
mod tests {
    use super::*;
    use crate::coverage::Coverage;
    use crate::rules::{refusal, Rules};

    fn note(coverage: &mut Coverage, sheet: &RuleSheet, rules: &Rules) {
        let limits = [AUTOMATA, STATES, TRANSITIONS, LINES];
        for (index, limit) in limits.iter().enumerate() {
            if usize::from(sheet.header[index]) == *limit {
                coverage.note(&format!("header word {index} at its limit"));
            }
        }
        for automaton in &rules.automata {
            coverage.note(&format!("v = {}", automaton.variables));
            coverage.note(&format!("{} states", automaton.numbers.len()));
            if automaton.accepting.contains(&true) && automaton.accepting.contains(&false) {
                coverage.note("both kinds of states");
            }
        }
    }

    #[test]
    fn sheets_are_accepted_and_of_every_shape() {
        let mut coverage = Coverage::new();
        for case in 0..4_000 {
            let mut rng = Rng::for_case(12, case);
            let sheet = rule_sheet(&mut rng);
            let words = sheet.words();
            assert_eq!(refusal(&words), None, "case {case}");
            let rules = Rules::read(&words).expect("an accepted sheet");
            note(&mut coverage, &sheet, &rules);
        }
        for index in 0..rule_header::WORDS {
            coverage.require(&format!("header word {index} at its limit"), 10);
        }
        for variables in 0..=VARIABLES {
            coverage.require(&format!("v = {variables}"), 500);
        }
        for states in 1..=AUTOMATON_STATES {
            coverage.require(&format!("{states} states"), 50);
        }
        coverage.require("both kinds of states", 1_000);
    }

    #[test]
    fn a_chain_of_seventeen_is_refused_by_question_12() {
        let mut coverage = Coverage::new();
        for case in 0..100 {
            let mut rng = Rng::for_case(13, case);
            let wish = Wish {
                signals: SIGNALS,
                automata: 1,
                chain: AUTOMATON_STATES + 1,
                lines: 3,
            };
            let sheet = sheet_for(&mut rng, wish);
            let states = sheet.chain_of(0).len();
            let expected = (states > AUTOMATON_STATES).then_some(12);
            assert_eq!(refusal(&sheet.words()), expected, "case {case}");
            coverage.note(&format!("{states} states"));
        }
        coverage.require(&format!("{} states", AUTOMATON_STATES + 1), 30);
    }
}
