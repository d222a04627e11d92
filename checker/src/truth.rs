//! Truth of every line at every node, by definition 5.
//!
//! A path line is decided on the product of machine and automaton, whose pairs lead to pairs of a
//! next node and the state that follows under the present node's valuation. An endless path with
//! good states without end exists exactly when the product leads to a strong component that has
//! a cycle and a good pair; condition 1 is not used.

use crate::components::strong_components;
use crate::machine::Machine;
use crate::refusal::Refusal;
use crate::rules::{Automaton, Line, Rules};

/// A machine and a rule that the questions 1 to 16 accept, with the truth of the rule's lines.
#[derive(Clone, Debug)]
pub struct Model {
    pub machine: Machine,
    pub rules: Rules,
    /// The truth by line and node, both counted from 0.
    pub truth: Vec<Vec<bool>>,
}

impl Model {
    /// Asks the questions 1 to 16 of two sheets.
    pub fn read(machine: &[u16], rules: &[u16]) -> Result<Model, Refusal> {
        let machine = Machine::read(machine).map_err(|q| Refusal::of_machine(q, 1))?;
        let rules = Rules::read(rules).map_err(Refusal::of)?;
        if rules.highest_signal() > machine.signals {
            return Err(Refusal::of(16));
        }
        let truth = truth(&machine, &rules);
        Ok(Model {
            machine,
            rules,
            truth,
        })
    }

    /// Whether the machine keeps the rule: its last line is true at every start node.
    pub fn keeps(&self) -> bool {
        keeps(&self.machine, &self.truth)
    }
}

/// Whether the last of the lines is true at every start node.
pub fn keeps(machine: &Machine, truth: &[Vec<bool>]) -> bool {
    let Some(rule) = truth.last() else {
        return false;
    };
    let mut nodes = machine.starts.iter().zip(rule);
    nodes.all(|(&start, &holds)| !start || holds)
}

/// The truth of each line at each node. The rule's signals are among the machine's.
pub fn truth(machine: &Machine, rules: &Rules) -> Vec<Vec<bool>> {
    let mut truth: Vec<Vec<bool>> = Vec::new();
    for line in &rules.lines {
        let row = line_truth(machine, rules, line, &truth);
        truth.push(row);
    }
    truth
}

/// The truth of one line, from the truths of those above it.
fn line_truth(machine: &Machine, rules: &Rules, line: &Line, above: &[Vec<bool>]) -> Vec<bool> {
    let nodes = 0..machine.nodes();
    match line {
        Line::Signal(signal) => nodes
            .map(|s| machine.labels[s] >> signal & 1 == 1)
            .collect(),
        Line::Not(f) => nodes.map(|s| !above[*f][s]).collect(),
        Line::Or(f, g) => nodes.map(|s| above[*f][s] || above[*g][s]).collect(),
        Line::SomePath {
            accepting,
            automaton,
            arguments,
        } => {
            let automaton = &rules.automata[*automaton];
            let valuations = valuations(machine, arguments, above);
            Product::new(machine, automaton, &valuations).some_path(*accepting)
        }
    }
}

/// The number of the valuation at each node: bit j - 1 is the truth of the j-th argument.
pub fn valuations(machine: &Machine, arguments: &[usize], truth: &[Vec<bool>]) -> Vec<usize> {
    let bits = arguments.iter().enumerate();
    (0..machine.nodes())
        .map(|s| {
            let set = bits.clone().filter(|(_, &line)| truth[line][s]);
            set.map(|(bit, _)| 1 << bit).sum()
        })
        .collect()
}

/// The product of a machine and an automaton. Its vertices are numbers: node times the number of
/// states, plus state.
pub struct Product<'a> {
    machine: &'a Machine,
    automaton: &'a Automaton,
    valuations: &'a [usize],
    states: usize,
}

impl<'a> Product<'a> {
    pub fn new(
        machine: &'a Machine,
        automaton: &'a Automaton,
        valuations: &'a [usize],
    ) -> Product<'a> {
        Product {
            machine,
            automaton,
            valuations,
            states: automaton.numbers.len(),
        }
    }

    pub fn len(&self) -> usize {
        self.machine.nodes() * self.states
    }

    pub fn is_empty(&self) -> bool {
        self.len() == 0
    }

    pub fn vertex(&self, node: usize, state: usize) -> usize {
        node * self.states + state
    }

    pub fn pair(&self, vertex: usize) -> (usize, usize) {
        (vertex / self.states, vertex % self.states)
    }

    /// The state that follows a pair: the step is chosen at the node that is left.
    fn next_state(&self, vertex: usize) -> usize {
        let (node, state) = self.pair(vertex);
        self.automaton.step[state][self.valuations[node]]
    }

    fn successor(&self, vertex: usize, index: usize) -> Option<usize> {
        let (node, _) = self.pair(vertex);
        let target = *self.machine.successors[node].get(index)?;
        Some(self.vertex(target, self.next_state(vertex)))
    }

    pub fn successors(&self, vertex: usize) -> impl Iterator<Item = usize> + '_ {
        let (node, _) = self.pair(vertex);
        let state = self.next_state(vertex);
        let targets = self.machine.successors[node].iter();
        targets.map(move |&target| self.vertex(target, state))
    }

    /// The nodes from which some path goes through states of the wanted kind without end.
    fn some_path(&self, accepting: bool) -> Vec<bool> {
        let component = strong_components(self.len(), |v, i| self.successor(v, i));
        let recurring = self.recurring(&component, accepting);
        let leads = self.leading_to(&component, recurring);
        (0..self.machine.nodes())
            .map(|node| leads[component[self.vertex(node, 0)]])
            .collect()
    }

    /// For each component, whether it has a cycle and a pair of the wanted kind.
    fn recurring(&self, component: &[usize], accepting: bool) -> Vec<bool> {
        let mut cyclic = vec![false; component.len()];
        let mut good = vec![false; component.len()];
        for vertex in 0..self.len() {
            let own = component[vertex];
            cyclic[own] |= self.successors(vertex).any(|next| component[next] == own);
            good[own] |= self.automaton.accepting[self.pair(vertex).1] == accepting;
        }
        cyclic.iter().zip(&good).map(|(&c, &g)| c && g).collect()
    }

    /// For each component, whether it leads to a marked one. Components are gone through from 0
    /// up, so that all that one leads to is known before.
    fn leading_to(&self, component: &[usize], mut marked: Vec<bool>) -> Vec<bool> {
        let mut vertices: Vec<usize> = (0..self.len()).collect();
        vertices.sort_by_key(|&vertex| component[vertex]);
        for vertex in vertices {
            let leads = self.successors(vertex).any(|next| marked[component[next]]);
            marked[component[vertex]] |= leads;
        }
        marked
    }
}

#[cfg(test)]
mod tests {
    use super::*;
    use crate::coverage::Coverage;
    use crate::format::{line, lines_from, operation};
    use crate::generate::pairs;
    use crate::rng::Rng;
    use crate::worked;

    fn rule_truth(machine: &[u16], rules: &[u16]) -> Vec<bool> {
        let model = Model::read(machine, rules).expect("accepted sheets");
        model.truth.last().expect("a rule has a line").clone()
    }

    #[test]
    fn marked_case_e_even_on_m3() {
        assert_eq!(rule_truth(&worked::m3(), &worked::even()), [true, false]);
    }

    #[test]
    fn marked_case_f_no_variables() {
        for machine in [worked::m3(), worked::m5(), worked::m6()] {
            let everywhere = rule_truth(&machine, &worked::constant(1));
            assert!(everywhere.iter().all(|&holds| holds));
            let nowhere = rule_truth(&machine, &worked::constant(0));
            assert!(nowhere.iter().all(|&holds| !holds));
        }
    }

    #[test]
    fn next_looks_one_step_ahead_on_some_path() {
        let next = worked::next_of_signal();
        assert_eq!(rule_truth(&worked::m3(), &next), [false, true]);
        assert_eq!(rule_truth(&worked::m5(), &next), [false, true, true, false]);
    }

    // Operation 4 is no negation of operation 3: on M5 some path from 2 meets signal 1 next, and
    // some path does not.
    #[test]
    fn operation_four_asks_for_a_path_of_its_own() {
        let mut words = worked::next_of_signal();
        let operation = words.len() - line::WORDS;
        words[operation] = operation::SOME_PATH_NOT;
        assert_eq!(rule_truth(&worked::m5(), &words), [true, true, false, true]);
    }

    #[test]
    fn a_signal_past_the_machine_is_refused_by_question_16() {
        let mut words = worked::signal_alone();
        words[lines_from(0, 0, 0) + line::SIGNAL] = 2;
        let refused = Model::read(&worked::m1(), &words).err();
        assert_eq!(refused, Some(Refusal::of(16)));
        assert!(Model::read(&worked::m5(), &words).is_ok());
    }

    #[test]
    fn machine_questions_come_before_rule_questions() {
        let refused = Model::read(&[], &[]).err();
        assert_eq!(refused, Some(Refusal::of_machine(1, 1)));
        let refused = Model::read(&worked::m1(), &[]).err();
        assert_eq!(refused, Some(Refusal::of(7)));
    }

    /// Looks for a path by trying all: a walk of the product that comes back to one of its own
    /// pairs, with a good pair from there on.
    fn found_by_trying(product: &Product, accepting: bool, walk: &mut Vec<usize>) -> bool {
        let last = walk[walk.len() - 1];
        let mut successors = product.successors(last);
        successors.any(
            |next| match walk.iter().position(|&vertex| vertex == next) {
                Some(back) => walk[back..].iter().any(|&vertex| {
                    let (_, state) = product.pair(vertex);
                    product.automaton.accepting[state] == accepting
                }),
                None => {
                    walk.push(next);
                    let found = found_by_trying(product, accepting, walk);
                    walk.pop();
                    found
                }
            },
        )
    }

    #[test]
    fn path_lines_agree_with_trying_all_paths() {
        let mut coverage = Coverage::new();
        for case in 0..6_000 {
            let mut rng = Rng::for_case(31, case);
            let (machine, rules) = pairs::tiny(&mut rng);
            let model = Model::read(&machine, &rules).expect("accepted sheets");
            for (line, truth) in model.rules.lines.iter().zip(&model.truth) {
                let Line::SomePath {
                    accepting,
                    automaton,
                    arguments,
                } = line
                else {
                    continue;
                };
                let automaton = &model.rules.automata[*automaton];
                let valuations = valuations(&model.machine, arguments, &model.truth);
                let product = Product::new(&model.machine, automaton, &valuations);
                for (node, &holds) in truth.iter().enumerate() {
                    let mut walk = vec![product.vertex(node, 0)];
                    let found = found_by_trying(&product, *accepting, &mut walk);
                    assert_eq!(holds, found, "case {case}, node {node}, {line:?}");
                    coverage.note(if holds { "true" } else { "false" });
                }
            }
        }
        coverage.require("true", 5_000);
        coverage.require("false", 5_000);
    }
    /// A path line by nested fixpoints: the greatest set of good pairs each of which leads to
    /// another of it, and all that leads there. It rests on condition 1.
    fn found_by_fixpoints(product: &Product, accepting: bool) -> Vec<bool> {
        let kinds = &product.automaton.accepting;
        let good = |v: usize| kinds[product.pair(v).1] == accepting;
        let mut staying: Vec<bool> = (0..product.len()).map(good).collect();
        while let Some(v) = (0..product.len())
            .find(|&v| staying[v] && !product.successors(v).any(|next| staying[next]))
        {
            staying[v] = false;
        }
        let mut leading = staying;
        while let Some(v) = (0..product.len())
            .find(|&v| !leading[v] && product.successors(v).any(|next| leading[next]))
        {
            leading[v] = true;
        }
        (0..product.machine.nodes())
            .map(|node| leading[product.vertex(node, 0)])
            .collect()
    }

    #[test]
    fn path_lines_agree_with_nested_fixpoints() {
        let mut coverage = Coverage::new();
        for case in 0..2_000 {
            let mut rng = Rng::for_case(34, case);
            let scale = match case % 100 {
                0 => pairs::Scale::Large,
                _ => pairs::Scale::Small,
            };
            let (machine, rules) = pairs::valid(&mut rng, scale);
            let model = Model::read(&machine, &rules).expect("accepted sheets");
            for (line, row) in model.rules.lines.iter().zip(&model.truth) {
                if let Line::SomePath {
                    accepting,
                    automaton,
                    arguments,
                } = line
                {
                    let automaton = &model.rules.automata[*automaton];
                    let valuations = valuations(&model.machine, arguments, &model.truth);
                    let product = Product::new(&model.machine, automaton, &valuations);
                    let found = found_by_fixpoints(&product, *accepting);
                    assert_eq!(*row, found, "case {case}, {line:?}");
                    coverage.note(match row.contains(&true) && row.contains(&false) {
                        true => "true at some nodes alone",
                        false => "true everywhere or nowhere",
                    });
                }
            }
        }
        coverage.require("true at some nodes alone", 300);
        coverage.require("true everywhere or nowhere", 500);
    }
}
