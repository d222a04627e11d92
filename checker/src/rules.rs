//! Rule sheets: the questions 7 to 15 of the scope document, and the automata and lines that an
//! accepted sheet describes.
//!
//! Condition 1 (question 14) is decided by strong components: a cycle that meets an accepting and
//! a non-accepting state exists exactly when one component holds both kinds.

use crate::components::strong_components;
use crate::format::{
    automaton, line, lines_from, operation, rule_header, rule_words, state, states_from,
    transition, transitions_from, AUTOMATA, AUTOMATA_FROM, AUTOMATON_STATES, LINES, SIGNALS,
    STATES, TRANSITIONS, VARIABLES,
};
use crate::machine::{chain, link_in_range};

/// The number of the first question that says "no" to a rule sheet, if one does.
pub fn refusal(words: &[u16]) -> Option<u16> {
    let Some(sheet) = Sheet::with_header(words) else {
        return Some(7);
    };
    let questions: [Question<'_>; 8] = [
        (8, Sheet::has_exact_length),
        (9, Sheet::has_automata_in_range),
        (10, Sheet::has_states_in_range),
        (11, Sheet::has_edges_in_range),
        (12, Sheet::has_closed_automata),
        (13, Sheet::has_one_edge_for_each_valuation),
        (14, Sheet::has_no_mixed_cycle),
        (15, Sheet::has_lines_in_range),
    ];
    let refused = questions.iter().find(|(_, says_yes)| !says_yes(&sheet));
    refused.map(|(number, _)| *number)
}

/// One line of a rule. Lines, automata and signals count from 0 here.
#[derive(Clone, Debug, PartialEq, Eq)]
pub enum Line {
    Signal(usize),
    Not(usize),
    Or(usize, usize),
    SomePath {
        /// Whether the states that recur without end are the accepting ones (operation 3).
        accepting: bool,
        automaton: usize,
        arguments: Vec<usize>,
    },
}

/// The automaton of an accepted record. Its states are places on its chain; the initial one is 0.
#[derive(Clone, Debug)]
pub struct Automaton {
    pub variables: usize,
    /// The record number of each state.
    pub numbers: Vec<usize>,
    pub accepting: Vec<bool>,
    /// The state that follows, by state and valuation.
    pub step: Vec<Vec<usize>>,
}

/// What an accepted rule sheet describes.
#[derive(Clone, Debug)]
pub struct Rules {
    pub automata: Vec<Automaton>,
    pub lines: Vec<Line>,
}

impl Rules {
    /// The automata and lines, or the number of the question that refuses the sheet.
    pub fn read(words: &[u16]) -> Result<Rules, u16> {
        match (refusal(words), Sheet::with_header(words)) {
            (None, Some(sheet)) => Ok(Rules {
                automata: (1..=sheet.automata).map(|a| sheet.automaton(a)).collect(),
                lines: (1..=sheet.lines).filter_map(|l| sheet.line(l)).collect(),
            }),
            (number, _) => Err(number.unwrap_or(7)),
        }
    }

    /// The highest signal number that a line names, 0 if none names one.
    pub fn highest_signal(&self) -> usize {
        let numbers = self.lines.iter().map(|line| match line {
            Line::Signal(signal) => signal + 1,
            _ => 0,
        });
        numbers.max().unwrap_or(0)
    }
}

/// A sheet to which question 7 says yes. Its readers take record numbers, which count from 1.
struct Sheet<'a> {
    words: &'a [u16],
    automata: usize,
    states: usize,
    edges: usize,
    lines: usize,
}

/// A question's number, and whether a sheet has what it asks for.
type Question<'a> = (u16, fn(&Sheet<'a>) -> bool);

impl<'a> Sheet<'a> {
    fn with_header(words: &'a [u16]) -> Option<Sheet<'a>> {
        let header = words.first_chunk::<{ rule_header::WORDS }>()?;
        let [automata, states, edges, lines] = header.map(usize::from);
        let in_range = automata <= AUTOMATA
            && states <= STATES
            && edges <= TRANSITIONS
            && (1..=LINES).contains(&lines);
        in_range.then_some(Sheet {
            words,
            automata,
            states,
            edges,
            lines,
        })
    }

    fn length(&self) -> usize {
        rule_words(self.automata, self.states, self.edges, self.lines)
    }

    fn record<const WORDS: usize>(&self, from: usize, number: usize) -> [usize; WORDS] {
        let first = from + WORDS * (number - 1);
        std::array::from_fn(|word| usize::from(self.words[first + word]))
    }

    /// Variables and first state.
    fn automaton_record(&self, number: usize) -> [usize; automaton::WORDS] {
        self.record(AUTOMATA_FROM, number)
    }

    /// Accepting, first edge and next state.
    fn state_record(&self, number: usize) -> [usize; state::WORDS] {
        self.record(states_from(self.automata), number)
    }

    /// Target state, mask and next edge.
    fn edge_record(&self, number: usize) -> [usize; transition::WORDS] {
        self.record(transitions_from(self.automata, self.states), number)
    }

    /// Operation, then five words.
    fn line_record(&self, number: usize) -> [usize; line::WORDS] {
        self.record(lines_from(self.automata, self.states, self.edges), number)
    }
}

/// The questions about single records.
impl Sheet<'_> {
    fn has_exact_length(&self) -> bool {
        self.words.len() == self.length()
    }

    fn has_automata_in_range(&self) -> bool {
        (1..=self.automata).all(|number| {
            let [variables, first] = self.automaton_record(number);
            variables <= VARIABLES && (1..=self.states).contains(&first)
        })
    }

    fn has_states_in_range(&self) -> bool {
        (1..=self.states).all(|number| {
            let [accepting, first, next] = self.state_record(number);
            accepting <= 1
                && (1..=self.edges).contains(&first)
                && link_in_range(next, number, self.states)
        })
    }

    fn has_edges_in_range(&self) -> bool {
        (1..=self.edges).all(|number| {
            let [target, _, next] = self.edge_record(number);
            (1..=self.states).contains(&target) && link_in_range(next, number, self.edges)
        })
    }

    fn has_lines_in_range(&self) -> bool {
        (1..=self.lines).all(|number| self.line(number).is_some())
    }

    /// The line of a record, or `None` if question 15 says no to it.
    fn line(&self, number: usize) -> Option<Line> {
        let record = self.line_record(number);
        // A record's words are read as numbers of any size; the operations are words.
        let operation = record[line::OPERATION] as u16;
        let (line, end) = match operation {
            operation::SIGNAL => (self.signal(record[line::SIGNAL])?, line::SIGNAL + 1),
            operation::NOT => (Line::Not(above(record[line::ONE], number)?), line::ONE + 1),
            operation::OR => {
                let [one, other] = [record[line::ONE], record[line::OTHER]];
                let line = Line::Or(above(one, number)?, above(other, number)?);
                (line, line::OTHER + 1)
            }
            operation::SOME_PATH | operation::SOME_PATH_NOT => {
                self.some_path(operation == operation::SOME_PATH, record, number)?
            }
            _ => return None,
        };
        let unused_are_zero = record[end..].iter().all(|&word| word == 0);
        unused_are_zero.then_some(line)
    }

    fn signal(&self, signal: usize) -> Option<Line> {
        (1..=SIGNALS)
            .contains(&signal)
            .then(|| Line::Signal(signal - 1))
    }

    /// A path line, and where its unused words begin.
    fn some_path(
        &self,
        accepting: bool,
        record: [usize; line::WORDS],
        number: usize,
    ) -> Option<(Line, usize)> {
        let automaton = record[line::AUTOMATON];
        if !(1..=self.automata).contains(&automaton) {
            return None;
        }
        let end = line::ARGUMENTS + self.automaton_record(automaton)[automaton::VARIABLES];
        let arguments: Option<Vec<usize>> = record[line::ARGUMENTS..end]
            .iter()
            .map(|&line| above(line, number))
            .collect();
        let line = Line::SomePath {
            accepting,
            automaton: automaton - 1,
            arguments: arguments?,
        };
        Some((line, end))
    }
}

/// The place of a line that stands above the line `number`, from 0, or `None` if it does not.
fn above(line: usize, number: usize) -> Option<usize> {
    (1..number).contains(&line).then(|| line - 1)
}

/// The questions about whole automata. They are asked once links lead upward and targets exist.
impl Sheet<'_> {
    fn chain_of(&self, automaton: usize) -> Vec<usize> {
        let [_, first] = self.automaton_record(automaton);
        chain(first, |state| self.state_record(state)[state::NEXT])
    }

    fn edges_out_of(&self, state: usize) -> Vec<usize> {
        let [_, first, _] = self.state_record(state);
        chain(first, |edge| self.edge_record(edge)[transition::NEXT])
    }

    fn has_closed_automata(&self) -> bool {
        (1..=self.automata).all(|automaton| {
            let states = self.chain_of(automaton);
            states.len() <= AUTOMATON_STATES
                && states
                    .iter()
                    .all(|&q| self.is_closed(automaton, &states, q))
        })
    }

    /// Masks in range, targets on the chain, none twice, for one state of the chain.
    fn is_closed(&self, automaton: usize, states: &[usize], state: usize) -> bool {
        let [variables, _] = self.automaton_record(automaton);
        let bound = 1usize << (1usize << variables);
        let mut seen = Vec::new();
        self.edges_out_of(state).iter().all(|&edge| {
            let [target, mask, _] = self.edge_record(edge);
            let first_time = !seen.contains(&target);
            seen.push(target);
            mask < bound && states.contains(&target) && first_time
        })
    }

    /// Edges exclude each other and together hold every valuation exactly when each valuation
    /// is in the mask of one edge.
    fn has_one_edge_for_each_valuation(&self) -> bool {
        (1..=self.automata).all(|automaton| {
            let [variables, _] = self.automaton_record(automaton);
            self.chain_of(automaton).iter().all(|&state| {
                let edges = self.edges_out_of(state);
                (0..1 << variables).all(|valuation| self.taken(&edges, valuation).len() == 1)
            })
        })
    }

    /// Those of the edges that are taken under a valuation.
    fn taken(&self, edges: &[usize], valuation: usize) -> Vec<usize> {
        let mut taken = edges.to_vec();
        taken.retain(|&edge| self.edge_record(edge)[transition::MASK] >> valuation & 1 == 1);
        taken
    }

    fn has_no_mixed_cycle(&self) -> bool {
        (1..=self.automata).all(|automaton| {
            let states = self.chain_of(automaton);
            let graph: Vec<Vec<usize>> = states
                .iter()
                .map(|&q| self.next_places(&states, q))
                .collect();
            let component = strong_components(graph.len(), |q, i| graph[q].get(i).copied());
            let accepting: Vec<usize> = states
                .iter()
                .map(|&q| self.state_record(q)[state::ACCEPTING])
                .collect();
            same_in_each(&component, &accepting)
        })
    }

    /// The places on the chain to which edges with nonzero masks lead.
    fn next_places(&self, states: &[usize], state: usize) -> Vec<usize> {
        let edges = self.edges_out_of(state);
        let records = edges.iter().map(|&edge| self.edge_record(edge));
        let taken = records.filter(|[_, mask, _]| *mask != 0);
        taken
            .filter_map(|[target, _, _]| place(states, target))
            .collect()
    }

    /// The automaton of a record on an accepted sheet.
    fn automaton(&self, number: usize) -> Automaton {
        let [variables, _] = self.automaton_record(number);
        let numbers = self.chain_of(number);
        let step = numbers
            .iter()
            .map(|&state| self.steps(variables, &numbers, state))
            .collect();
        Automaton {
            variables,
            accepting: numbers
                .iter()
                .map(|&q| self.state_record(q)[state::ACCEPTING] == 1)
                .collect(),
            step,
            numbers,
        }
    }

    /// The place that follows a state under each valuation.
    fn steps(&self, variables: usize, states: &[usize], state: usize) -> Vec<usize> {
        let edges = self.edges_out_of(state);
        let follow = |valuation| {
            let edge = *self.taken(&edges, valuation).first()?;
            place(states, self.edge_record(edge)[transition::TARGET])
        };
        (0..1 << variables).filter_map(follow).collect()
    }
}

fn place(states: &[usize], number: usize) -> Option<usize> {
    states.iter().position(|&state| state == number)
}

fn same_in_each(component: &[usize], accepting: &[usize]) -> bool {
    let mut kind = vec![None; component.len()];
    component
        .iter()
        .zip(accepting)
        .all(|(&c, &a)| *kind[c].get_or_insert(a) == a)
}

#[cfg(test)]
mod tests {
    use super::*;
    use crate::worked;

    #[test]
    fn the_worked_rules_are_accepted() {
        for words in [
            worked::even(),
            worked::constant(1),
            worked::constant(0),
            worked::next_of_signal(),
        ] {
            assert_eq!(refusal(&words), None, "{words:?}");
        }
    }

    #[test]
    fn marked_case_g_a_mixed_cycle() {
        assert_eq!(refusal(&worked::mixed()), Some(14));
    }

    #[test]
    fn marked_case_h_a_valuation_left_out() {
        assert_eq!(refusal(&worked::incomplete()), Some(13));
    }

    #[test]
    fn short_sheets_and_wrong_lengths() {
        let words = worked::even();
        for length in 0..words.len() {
            let expected = if length < rule_header::WORDS { 7 } else { 8 };
            assert_eq!(refusal(&words[..length]), Some(expected), "{length} words");
        }
        let mut longer = words.clone();
        longer.push(0);
        assert_eq!(refusal(&longer), Some(8));
    }

    #[test]
    fn a_rule_without_automata() {
        let last = SIGNALS as u16;
        assert_eq!(refusal(&[0, 0, 0, 1, 0, last, 0, 0, 0, 0]), None);
        assert_eq!(refusal(&[0, 0, 0, 1, 0, last + 1, 0, 0, 0, 0]), Some(15));
        assert_eq!(refusal(&[0, 0, 0, 1, 3, 1, 0, 0, 0, 0]), Some(15));
        assert_eq!(refusal(&[0, 0, 0, 0]), Some(7));
    }

    // An edge with mask zero is never taken, so a cycle along it is none; it is a second edge
    // to its target all the same.
    #[test]
    fn zero_masks_close_no_cycle_but_count_as_targets() {
        let closing = [
            1, 2, 4, 1, 1, 1, 1, 1, 2, 0, 3, 0, //
            1, 0, 2, 2, 3, 0, 2, 3, 4, 1, 0, 0, //
            0, 1, 0, 0, 0, 0,
        ];
        assert_eq!(refusal(&closing), None);
        let [third, fourth] = [2, 3].map(|n| transitions_from(1, 2) + n * transition::WORDS);
        let mut twice = closing;
        twice[fourth + transition::TARGET] = 2;
        assert_eq!(refusal(&twice), Some(12));
        let mut taken = closing;
        taken[third + transition::MASK] = 2;
        taken[fourth + transition::MASK] = 1;
        assert_eq!(refusal(&taken), Some(14));
    }

    #[test]
    fn overlapping_masks() {
        let mut words = worked::even();
        words[transitions_from(1, 3) + transition::WORDS + transition::MASK] = 3;
        assert_eq!(refusal(&words), Some(13));
    }

    #[test]
    fn the_mask_bound() {
        for (variables, bound) in [(0, 2), (1, 4), (2, 16), (3, 256)] {
            let mut words = worked::constant(1);
            let mask = transitions_from(1, 1) + transition::MASK;
            words[AUTOMATA_FROM + automaton::VARIABLES] = variables;
            words[mask] = bound - 1;
            let line = words.len() - line::WORDS;
            words[line..].copy_from_slice(&[0, 1, 0, 0, 0, 0]);
            assert_eq!(refusal(&words), None, "v = {variables}");
            words[mask] = bound;
            assert_eq!(refusal(&words), Some(12), "v = {variables}");
        }
    }

    #[test]
    fn even_as_an_automaton() {
        let rules = Rules::read(&worked::even()).expect("an accepted sheet");
        let even = &rules.automata[0];
        assert_eq!(even.numbers, [1, 2, 3]);
        assert_eq!(even.accepting, [true, true, false]);
        assert_eq!(even.step, [vec![2, 1], vec![0, 0], vec![2, 2]]);
        assert_eq!(rules.lines[0], Line::Signal(0));
        assert_eq!(
            rules.lines[1],
            Line::SomePath {
                accepting: true,
                automaton: 0,
                arguments: vec![0]
            }
        );
        assert_eq!(rules.highest_signal(), 1);
    }
}
