//! Comparison of two machines by the greatest fixpoint over pairs of nodes, the questions 1 to 6
//! of both sheets and 20 to 22, and a judge of answers.
//!
//! Nodes satisfy the same rules of the logic exactly when they are bisimilar. A machine keeps a
//! rule if it is true at every start; so two machines keep the same rules exactly when each start
//! of either is bisimilar to a start of the other: a class of starts that only one has gives a
//! rule, false on that class alone, that only the other keeps.

use crate::format::{rule_space, written_lines, BOTH_NODES};
use crate::machine::Machine;
use crate::refusal::Refusal;
use crate::written::judge_rule;

#[derive(Clone, Copy, Debug, PartialEq, Eq)]
pub enum Answer {
    Refused(Refusal),
    Equal,
    Unequal,
}

/// Two machine sheets that the questions 1 to 6, 20 and 21 accept.
#[derive(Clone, Debug)]
pub struct Both {
    pub first: Machine,
    pub second: Machine,
}

impl Both {
    pub fn read(first: &[u16], second: &[u16]) -> Result<Both, Refusal> {
        let first = Machine::read(first).map_err(|q| Refusal::of_machine(q, 1))?;
        let second = Machine::read(second).map_err(|q| Refusal::of_machine(q, 2))?;
        if first.signals != second.signals {
            return Err(Refusal::of(20));
        }
        if first.nodes() + second.nodes() > BOTH_NODES {
            return Err(Refusal::of(21));
        }
        Ok(Both { first, second })
    }

    pub fn nodes(&self) -> usize {
        self.first.nodes() + self.second.nodes()
    }

    /// The words that question 22 asks for.
    pub fn room(&self) -> usize {
        rule_space(self.first.signals, self.nodes())
    }

    /// The most lines of a written rule.
    pub fn most_lines(&self) -> usize {
        written_lines(self.first.signals, self.nodes())
    }

    /// The signals of all nodes, the second machine's after the first one's.
    pub fn labels(&self) -> Vec<u16> {
        [&self.first.labels[..], &self.second.labels[..]].concat()
    }

    /// The successors of all nodes, numbered in the same way.
    pub fn successors(&self) -> Vec<Vec<usize>> {
        let shift = self.first.nodes();
        let shifted = |targets: &Vec<usize>| targets.iter().map(|t| t + shift).collect();
        let second = self.second.successors.iter().map(shifted);
        self.first
            .successors
            .iter()
            .cloned()
            .chain(second)
            .collect()
    }

    /// The starts of the first machine and of the second, as sets of these nodes.
    pub fn starts(&self) -> [u128; 2] {
        let shift = self.first.nodes();
        [
            set((0..shift).filter(|&s| self.first.starts[s])),
            set((shift..self.nodes()).filter(|&s| self.second.starts[s - shift])),
        ]
    }

    /// Whether the machines keep the same rules.
    pub fn equal(&self) -> bool {
        let related = bisimilar(self);
        let [first, second] = self.starts();
        let matched =
            |own: u128, other: u128| members(own).all(|start| related[start] & other != 0);
        matched(first, second) && matched(second, first)
    }
}

/// A set of nodes as the bits of a word.
pub fn set(nodes: impl Iterator<Item = usize>) -> u128 {
    nodes.fold(0, |set, node| set | 1 << node)
}

/// The nodes of a set, in ascending order.
pub fn members(set: u128) -> impl Iterator<Item = usize> {
    (0..BOTH_NODES).filter(move |node| set >> node & 1 == 1)
}

/// For each node of both machines the set of nodes that are bisimilar to it: pairs with the same
/// signals, less those where one has a step that the other cannot answer, until none is left.
pub fn bisimilar(both: &Both) -> Vec<u128> {
    let labels = both.labels();
    let successors = both.successors();
    let steps: Vec<u128> = successors.iter().map(|t| set(t.iter().copied())).collect();
    let nodes = 0..labels.len();
    let alike = |s: usize| set(nodes.clone().filter(|&t| labels[s] == labels[t]));
    let mut related: Vec<u128> = nodes.clone().map(alike).collect();
    let answered = |related: &[u128], s: usize, t: usize| {
        successors[s]
            .iter()
            .all(|&next| related[next] & steps[t] != 0)
    };
    loop {
        let mut changed = false;
        for s in nodes.clone() {
            for t in members(related[s]).filter(|&t| t < s) {
                if !(answered(&related, s, t) && answered(&related, t, s)) {
                    related[s] &= !(1 << t);
                    related[t] &= !(1 << s);
                    changed = true;
                }
            }
        }
        if !changed {
            return related;
        }
    }
}

/// The right answer for two sheets and a space of `room` words.
pub fn settled(first: &[u16], second: &[u16], room: usize) -> Answer {
    match Both::read(first, second) {
        Err(refusal) => Answer::Refused(refusal),
        Ok(both) if room < both.room() => Answer::Refused(Refusal::of(22)),
        Ok(both) if both.equal() => Answer::Equal,
        Ok(_) => Answer::Unequal,
    }
}

/// Says what is wrong with an answer, given the space before and after the call.
pub fn judge(
    first: &[u16],
    second: &[u16],
    before: &[u16],
    answer: Answer,
    after: &[u16],
) -> Result<(), String> {
    let settled = settled(first, second, before.len());
    if answer != settled {
        return Err(format!("{answer:?}, where {settled:?} is right"));
    }
    if before.len() != after.len() {
        return Err("the space has another length".to_string());
    }
    let written = match (answer, Both::read(first, second)) {
        (Answer::Unequal, Ok(both)) => judge_rule(&both, after)?,
        _ => 0,
    };
    match before[written..] == after[written..] {
        true => Ok(()),
        false => Err(format!("a word past the first {written} was changed")),
    }
}

#[cfg(test)]
mod tests {
    use super::*;
    use crate::coverage::Coverage;
    use crate::format::{node, NODES_FROM};
    use crate::generate::machine_pairs::{self, Kind};
    use crate::partition::Refinement;
    use crate::rng::Rng;
    use crate::rules::Rules;
    use crate::truth::{keeps, truth};
    use crate::{generate, worked};

    const ROOM: usize = 6_000;

    #[test]
    fn marked_case_a_m1_and_m2_are_equal() {
        let answer = settled(&worked::m1(), &worked::m2(), ROOM);
        assert_eq!(answer, Answer::Equal);
    }

    #[test]
    fn marked_case_b_m1_and_m3_are_unequal() {
        let answer = settled(&worked::m1(), &worked::m3(), ROOM);
        assert_eq!(answer, Answer::Unequal);
    }

    #[test]
    fn marked_case_c_the_same_paths_are_not_enough() {
        let answer = settled(&worked::m5(), &worked::m6(), ROOM);
        assert_eq!(answer, Answer::Unequal);
    }

    #[test]
    fn marked_case_d_a_machine_equals_itself() {
        let answer = settled(&worked::m1(), &worked::m1(), ROOM);
        assert_eq!(answer, Answer::Equal);
    }

    #[test]
    fn the_questions_of_a_comparison() {
        let refused = |question, sheet| Answer::Refused(Refusal { question, sheet });
        let m1 = worked::m1();
        assert_eq!(settled(&[], &[], 0), refused(1, 1));
        assert_eq!(settled(&m1, &[], 0), refused(1, 2));
        assert_eq!(settled(&m1, &worked::m5(), 0), refused(20, 0));
        let asked = rule_space(1, 1 + 2);
        assert_eq!(settled(&m1, &worked::m2(), asked - 1), refused(22, 0));
        assert_eq!(settled(&m1, &worked::m2(), asked), Answer::Equal);
    }

    // Question 21 counts the nodes of a sheet that is compared with itself twice.
    #[test]
    fn sixty_four_nodes_twice_and_no_more() {
        let most = BOTH_NODES / 2;
        for nodes in [most, most + 1] {
            let mut rng = Rng::new(nodes as u64);
            let graph = generate::machines::graph(&mut rng, nodes, 3);
            let words = generate::machines::lay_out(&mut rng, &graph).words();
            let expected = match nodes == most {
                true => Answer::Equal,
                false => Answer::Refused(Refusal::of(21)),
            };
            assert_eq!(settled(&words, &words, ROOM), expected);
        }
    }

    // Machines without a common start, though all their nodes are alike in pairs.
    #[test]
    fn starts_are_looked_for_in_both_directions() {
        let mut two_starts = worked::m3();
        two_starts[NODES_FROM + node::WORDS + node::START] = 1;
        assert_eq!(settled(&worked::m3(), &two_starts, ROOM), Answer::Unequal);
        assert_eq!(settled(&two_starts, &worked::m3(), ROOM), Answer::Unequal);
        assert_eq!(settled(&two_starts, &two_starts, ROOM), Answer::Equal);
    }

    #[test]
    fn the_fixpoint_agrees_with_partition_refinement() {
        let mut coverage = Coverage::new();
        for case in 0..4_000 {
            let mut rng = Rng::for_case(51, case);
            let pair = machine_pairs::any(&mut rng);
            let Ok(both) = Both::read(&pair.first, &pair.second) else {
                continue;
            };
            let refinement = Refinement::of(&both);
            for (node, &class) in bisimilar(&both).iter().enumerate() {
                assert_eq!(class, refinement.block_of(node), "case {case}");
            }
            let rule = refinement.telling_apart(&both);
            assert_eq!(rule.is_none(), both.equal(), "case {case}");
            coverage.note(if rule.is_some() { "unequal" } else { "equal" });
        }
        coverage.require("equal", 800);
        coverage.require("unequal", 800);
    }

    // The other half of the claim that bisimilar nodes satisfy the same rules, on rules with
    // automata of every kind.
    #[test]
    fn equal_machines_keep_the_same_rules() {
        let mut coverage = Coverage::new();
        for case in 0..600 {
            let mut rng = Rng::for_case(52, case);
            let pair = machine_pairs::of_kind(&mut rng, Kind::Bisimilar);
            let both = Both::read(&pair.first, &pair.second).expect("a pair to compare");
            assert!(both.equal(), "case {case}");
            for _ in 0..4 {
                let mut wish = generate::rules::Wish::random(&mut rng, both.first.signals);
                wish.lines = wish.lines.min(20);
                let words = generate::rules::sheet_for(&mut rng, wish).words();
                let rules = Rules::read(&words).expect("an accepted sheet");
                let kept = keeps(&both.first, &truth(&both.first, &rules));
                assert_eq!(kept, keeps(&both.second, &truth(&both.second, &rules)));
                coverage.note(if kept { "kept" } else { "not kept" });
            }
        }
        coverage.require("kept", 400);
        coverage.require("not kept", 400);
    }
}
