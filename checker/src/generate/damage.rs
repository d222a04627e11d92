//! Faults for valid sheets, at the limits of each question. A fault is aimed at a question but
//! bound to none: a value at the right side of its limit leaves the sheet valid, and an earlier
//! question may find it first. The tests count what came of it.

use super::{MachineSheet, RuleSheet};
use crate::format::{
    automaton, edge, line, machine_header, node, operation, rule_header, state, transition,
    AUTOMATA, AUTOMATON_STATES, EDGES, LINES, NODES, SIGNALS, STATES, TRANSITIONS, VARIABLES,
};
use crate::rng::Rng;

/// One fault of a machine sheet.
pub type MachineFault = fn(&mut Rng, &mut MachineSheet);

/// One fault of a rule sheet.
pub type RuleFault = fn(&mut Rng, &mut RuleSheet);

/// The faults of machine sheets, with the question that each is aimed at.
pub const MACHINE_FAULTS: [(u16, MachineFault); 8] = [
    (1, machine_header),
    (2, machine_record_count),
    (3, signal_past_the_last),
    (3, start_flag),
    (4, first_edge_of_node),
    (5, machine_edge_target),
    (5, machine_edge_link),
    (6, no_start),
];

/// The faults of rule sheets, with the question that each is aimed at.
pub const RULE_FAULTS: [(u16, RuleFault); 23] = [
    (7, rule_header),
    (8, rule_record_count),
    (9, variables),
    (9, first_state),
    (10, accepting_word),
    (10, first_edge_of_state),
    (10, state_link),
    (11, rule_edge_target),
    (11, rule_edge_link),
    (12, long_chain),
    (12, mask_at_its_bound),
    (12, target_off_the_chain),
    (12, target_twice),
    (12, another_edge),
    (13, mask_bit_turned),
    (13, mask_emptied),
    (14, acceptance_turned),
    (14, cycle_closed),
    (15, line_operation),
    (15, line_word),
    (15, unused_line_word),
    (15, signal_number),
    (15, automaton_number),
];

/// A record: often the first or the last, where a loop that stops short shows.
fn record(rng: &mut Rng, count: usize) -> Option<usize> {
    match rng.below(4) {
        _ if count == 0 => None,
        0 => Some(0),
        1 => Some(count - 1),
        _ => Some(rng.below(count)),
    }
}

/// A number for a record that exists or not.
fn index(rng: &mut Rng, last: usize) -> u16 {
    let last = last as u16;
    *rng.pick(&[
        0,
        1,
        last,
        last,
        last.wrapping_add(1),
        last.wrapping_add(1),
        u16::MAX,
    ])
}

/// A link: to nothing, to itself, lower, higher, to the last and past it.
fn link(rng: &mut Rng, own: usize, last: usize) -> u16 {
    let (own, last) = (own as u16, last as u16);
    *rng.pick(&[0, own, own, own - 1, 1, own + 1, last, last + 1, u16::MAX])
}

/// A header word at or past a bound, or one off its present value.
fn near(rng: &mut Rng, word: u16, bounds: [usize; 2]) -> u16 {
    let [low, high] = bounds.map(|bound| bound as u16);
    let one_off = [word.wrapping_sub(1), word.wrapping_add(1)];
    let at = [low, low.wrapping_sub(1), high, high + 1, u16::MAX];
    if rng.chance(1, 3) {
        *rng.pick(&one_off)
    } else {
        *rng.pick(&at)
    }
}

fn machine_header(rng: &mut Rng, sheet: &mut MachineSheet) {
    let word = rng.below(machine_header::WORDS);
    let bounds = [[1, NODES], [1, SIGNALS], [1, EDGES]][word];
    sheet.header[word] = near(rng, sheet.header[word], bounds);
}

/// A record more or less than the header says.
fn machine_record_count(rng: &mut Rng, sheet: &mut MachineSheet) {
    match rng.below(4) {
        0 => sheet.nodes.push([0, 0, 1]),
        1 => sheet.edges.push([1, 0]),
        2 => drop(sheet.nodes.pop()),
        _ => drop(sheet.edges.pop()),
    }
}

fn signal_past_the_last(rng: &mut Rng, sheet: &mut MachineSheet) {
    let signals = usize::from(sheet.header[machine_header::SIGNALS]);
    if let (Some(node), true) = (record(rng, sheet.nodes.len()), signals < SIGNALS) {
        let bit = if rng.chance(1, 2) {
            signals
        } else {
            SIGNALS - 1
        };
        sheet.nodes[node][node::SIGNALS] |= 1 << bit;
    }
}

fn start_flag(rng: &mut Rng, sheet: &mut MachineSheet) {
    if let Some(node) = record(rng, sheet.nodes.len()) {
        sheet.nodes[node][node::START] = *rng.pick(&[0, 1, 2, 2, 3, u16::MAX]);
    }
}

fn first_edge_of_node(rng: &mut Rng, sheet: &mut MachineSheet) {
    if let Some(node) = record(rng, sheet.nodes.len()) {
        sheet.nodes[node][node::FIRST_EDGE] = index(rng, sheet.edges.len());
    }
}

fn machine_edge_target(rng: &mut Rng, sheet: &mut MachineSheet) {
    if let Some(edge) = record(rng, sheet.edges.len()) {
        sheet.edges[edge][edge::TARGET] = index(rng, sheet.nodes.len());
    }
}

fn machine_edge_link(rng: &mut Rng, sheet: &mut MachineSheet) {
    if let Some(edge) = record(rng, sheet.edges.len()) {
        sheet.edges[edge][edge::NEXT] = link(rng, edge + 1, sheet.edges.len());
    }
}

fn no_start(_: &mut Rng, sheet: &mut MachineSheet) {
    for node in &mut sheet.nodes {
        node[node::START] = 0;
    }
}

fn rule_header(rng: &mut Rng, sheet: &mut RuleSheet) {
    let word = rng.below(rule_header::WORDS);
    let bounds = [[0, AUTOMATA], [0, STATES], [0, TRANSITIONS], [1, LINES]][word];
    sheet.header[word] = near(rng, sheet.header[word], bounds);
}

/// A record more or less than the header says.
fn rule_record_count(rng: &mut Rng, sheet: &mut RuleSheet) {
    match rng.below(8) {
        0 => sheet.automata.push([0, 1]),
        1 => sheet.states.push([0, 1, 0]),
        2 => sheet.edges.push([1, 0, 0]),
        3 => sheet.lines.push([operation::SIGNAL, 1, 0, 0, 0, 0]),
        4 => drop(sheet.automata.pop()),
        5 => drop(sheet.states.pop()),
        6 => drop(sheet.edges.pop()),
        _ => drop(sheet.lines.pop()),
    }
}

fn variables(rng: &mut Rng, sheet: &mut RuleSheet) {
    if let Some(automaton) = record(rng, sheet.automata.len()) {
        let most = VARIABLES as u16;
        let values = [0, most - 1, most, most + 1, most + 1, most + 2, u16::MAX];
        sheet.automata[automaton][automaton::VARIABLES] = *rng.pick(&values);
    }
}

fn first_state(rng: &mut Rng, sheet: &mut RuleSheet) {
    if let Some(automaton) = record(rng, sheet.automata.len()) {
        sheet.automata[automaton][automaton::FIRST_STATE] = index(rng, sheet.states.len());
    }
}

fn accepting_word(rng: &mut Rng, sheet: &mut RuleSheet) {
    if let Some(state) = record(rng, sheet.states.len()) {
        sheet.states[state][state::ACCEPTING] = *rng.pick(&[2, 2, 3, 256, u16::MAX]);
    }
}

fn first_edge_of_state(rng: &mut Rng, sheet: &mut RuleSheet) {
    if let Some(state) = record(rng, sheet.states.len()) {
        sheet.states[state][state::FIRST_TRANSITION] = index(rng, sheet.edges.len());
    }
}

fn state_link(rng: &mut Rng, sheet: &mut RuleSheet) {
    if let Some(state) = record(rng, sheet.states.len()) {
        sheet.states[state][state::NEXT] = link(rng, state + 1, sheet.states.len());
    }
}

fn rule_edge_target(rng: &mut Rng, sheet: &mut RuleSheet) {
    if let Some(edge) = record(rng, sheet.edges.len()) {
        sheet.edges[edge][transition::TARGET] = index(rng, sheet.states.len());
    }
}

fn rule_edge_link(rng: &mut Rng, sheet: &mut RuleSheet) {
    if let Some(edge) = record(rng, sheet.edges.len()) {
        sheet.edges[edge][transition::NEXT] = link(rng, edge + 1, sheet.edges.len());
    }
}

/// An automaton, a state of its chain, and that state's edges: what the questions 12 to 14 ask
/// about. Nothing if an earlier fault broke the links that lead there.
struct Spot {
    variables: u16,
    chain: Vec<usize>,
    state: usize,
    edges: Vec<usize>,
}

fn spot(rng: &mut Rng, sheet: &RuleSheet) -> Option<Spot> {
    if !sheet.has_sound_links() {
        return None;
    }
    let automaton = record(rng, sheet.automata.len())?;
    let chain = sheet.chain_of(automaton);
    let state = chain[record(rng, chain.len())?];
    Some(Spot {
        variables: sheet.automata[automaton][automaton::VARIABLES],
        edges: sheet.edges_out_of(state),
        chain,
        state,
    })
}

/// A valuation of the automaton at a spot.
fn valuation(rng: &mut Rng, spot: &Spot) -> u16 {
    rng.below(1 << spot.variables.min(VARIABLES as u16)) as u16
}

/// Lengthens a chain to the limit, or by one more. The new states lead to themselves.
fn long_chain(rng: &mut Rng, sheet: &mut RuleSheet) {
    let Some(spot) = spot(rng, sheet) else { return };
    let wanted = AUTOMATON_STATES + rng.below(2);
    let full = (1u32 << (1 << spot.variables.min(VARIABLES as u16))) - 1;
    let mut last = spot.chain[spot.chain.len() - 1];
    for _ in spot.chain.len()..wanted {
        let number = sheet.states.len() as u16 + 1;
        sheet.edges.push([number, full as u16, 0]);
        sheet.states[last][state::NEXT] = number;
        sheet
            .states
            .push([rng.below(2) as u16, sheet.edges.len() as u16, 0]);
        last = sheet.states.len() - 1;
    }
    sheet.header[rule_header::STATES] = sheet.states.len() as u16;
    sheet.header[rule_header::TRANSITIONS] = sheet.edges.len() as u16;
}

fn mask_at_its_bound(rng: &mut Rng, sheet: &mut RuleSheet) {
    let Some(spot) = spot(rng, sheet) else { return };
    let bound = 1u32 << (1 << spot.variables.min(VARIABLES as u16));
    let edge = *rng.pick(&spot.edges);
    let values = [bound - 1, bound, bound, bound + 1, u32::from(u16::MAX)];
    sheet.edges[edge][transition::MASK] = *rng.pick(&values) as u16;
}

/// A target of another chain, or of none.
fn target_off_the_chain(rng: &mut Rng, sheet: &mut RuleSheet) {
    let Some(spot) = spot(rng, sheet) else { return };
    let others: Vec<usize> = (0..sheet.states.len())
        .filter(|state| !spot.chain.contains(state))
        .collect();
    if !others.is_empty() {
        let edge = *rng.pick(&spot.edges);
        sheet.edges[edge][transition::TARGET] = *rng.pick(&others) as u16 + 1;
    }
}

/// Two edges of one state with one target; the second takes the first one's mask along or not.
fn target_twice(rng: &mut Rng, sheet: &mut RuleSheet) {
    let Some(spot) = spot(rng, sheet) else { return };
    let (one, other) = (*rng.pick(&spot.edges), *rng.pick(&spot.edges));
    sheet.edges[one][transition::TARGET] = sheet.edges[other][transition::TARGET];
}

/// One more edge at the end of a state's chain: a target twice, an overlap, or, with mask zero
/// and a target of its own, one that is never taken and closes no cycle.
fn another_edge(rng: &mut Rng, sheet: &mut RuleSheet) {
    let Some(spot) = spot(rng, sheet) else { return };
    let target = *rng.pick(&spot.chain) as u16 + 1;
    let mask = if rng.chance(3, 4) {
        0
    } else {
        1 << valuation(rng, &spot)
    };
    append_edge(sheet, &spot.edges, target, mask);
}

fn mask_bit_turned(rng: &mut Rng, sheet: &mut RuleSheet) {
    let Some(spot) = spot(rng, sheet) else { return };
    let edge = *rng.pick(&spot.edges);
    sheet.edges[edge][transition::MASK] ^= 1 << valuation(rng, &spot);
}

fn mask_emptied(rng: &mut Rng, sheet: &mut RuleSheet) {
    let Some(spot) = spot(rng, sheet) else { return };
    sheet.edges[*rng.pick(&spot.edges)][transition::MASK] = 0;
}

fn acceptance_turned(rng: &mut Rng, sheet: &mut RuleSheet) {
    let Some(spot) = spot(rng, sheet) else { return };
    sheet.states[spot.state][state::ACCEPTING] ^= 1;
}

/// Walks some steps from a state that has a step to the other kind, and leads the last state of
/// the walk back to the first: under a valuation, which closes a cycle, or under none.
fn cycle_closed(rng: &mut Rng, sheet: &mut RuleSheet) {
    let Some(spot) = spot(rng, sheet) else { return };
    let leads_to_other_kind = |&state: &usize| {
        let kind = sheet.states[state][state::ACCEPTING];
        let targets = taken_targets(sheet, state);
        targets
            .iter()
            .any(|&target| sheet.states[target][state::ACCEPTING] != kind)
    };
    let heads: Vec<usize> = spot
        .chain
        .iter()
        .copied()
        .filter(leads_to_other_kind)
        .collect();
    let Some(head) = record(rng, heads.len()).map(|index| heads[index]) else {
        return;
    };
    let mut last = head;
    for _ in 0..rng.between(1, 4) {
        let targets = taken_targets(sheet, last);
        last = if targets.is_empty() {
            last
        } else {
            *rng.pick(&targets)
        };
    }
    let bit = if rng.chance(1, 4) {
        0
    } else {
        1 << valuation(rng, &spot)
    };
    lead_back(sheet, last, head, bit);
}

/// The places of the states to which edges with nonzero masks lead.
fn taken_targets(sheet: &RuleSheet, state: usize) -> Vec<usize> {
    let edges = sheet.edges_out_of(state);
    let taken = edges
        .iter()
        .filter(|&&edge| sheet.edges[edge][transition::MASK] != 0);
    let targets =
        taken.map(|&edge| usize::from(sheet.edges[edge][transition::TARGET]).saturating_sub(1));
    targets
        .filter(|&target| target < sheet.states.len())
        .collect()
}

/// Takes the bit from all edges out of a state, and gives it to the one that leads to another,
/// which is added if there is none.
fn lead_back(sheet: &mut RuleSheet, from: usize, to: usize, bit: u16) {
    let edges = sheet.edges_out_of(from);
    for &edge in &edges {
        sheet.edges[edge][transition::MASK] &= !bit;
    }
    let number = to as u16 + 1;
    match edges
        .iter()
        .find(|&&edge| sheet.edges[edge][transition::TARGET] == number)
    {
        Some(&edge) => sheet.edges[edge][transition::MASK] |= bit,
        None => append_edge(sheet, &edges, number, bit),
    }
}

fn append_edge(sheet: &mut RuleSheet, edges: &[usize], target: u16, mask: u16) {
    sheet.edges.push([target, mask, 0]);
    sheet.header[rule_header::TRANSITIONS] = sheet.edges.len() as u16;
    let last = edges[edges.len() - 1];
    sheet.edges[last][transition::NEXT] = sheet.edges.len() as u16;
}

fn line_operation(rng: &mut Rng, sheet: &mut RuleSheet) {
    if let Some(line) = record(rng, sheet.lines.len()) {
        let last = operation::SOME_PATH_NOT;
        let values = [
            operation::SIGNAL,
            operation::NOT,
            operation::OR,
            operation::SOME_PATH,
            last,
            last + 1,
            last + 1,
            last + 2,
            256,
            u16::MAX,
        ];
        sheet.lines[line][line::OPERATION] = *rng.pick(&values);
    }
}

/// A reference to a line above, to the line itself, below, to none.
fn line_word(rng: &mut Rng, sheet: &mut RuleSheet) {
    if let Some(line) = record(rng, sheet.lines.len()) {
        let word = rng.between(1, line::WORDS - 1);
        sheet.lines[line][word] = link(rng, line + 1, sheet.lines.len());
    }
}

fn unused_line_word(rng: &mut Rng, sheet: &mut RuleSheet) {
    if let Some(line) = record(rng, sheet.lines.len()) {
        let zeros: Vec<usize> = (1..line::WORDS)
            .filter(|&word| sheet.lines[line][word] == 0)
            .collect();
        if !zeros.is_empty() {
            sheet.lines[line][*rng.pick(&zeros)] = *rng.pick(&[1, 2, u16::MAX]);
        }
    }
}

/// A line of the kind that takes a certain number as its first word.
fn line_of(rng: &mut Rng, sheet: &RuleSheet, operations: &[u16]) -> Option<usize> {
    let fitting: Vec<usize> = (0..sheet.lines.len())
        .filter(|&line| operations.contains(&sheet.lines[line][line::OPERATION]))
        .collect();
    record(rng, fitting.len()).map(|index| fitting[index])
}

fn signal_number(rng: &mut Rng, sheet: &mut RuleSheet) {
    if let Some(line) = line_of(rng, sheet, &[operation::SIGNAL]) {
        let last = SIGNALS as u16;
        sheet.lines[line][line::SIGNAL] = *rng.pick(&[0, 1, last, last + 1, last + 1, u16::MAX]);
    }
}

fn automaton_number(rng: &mut Rng, sheet: &mut RuleSheet) {
    let operations = [operation::SOME_PATH, operation::SOME_PATH_NOT];
    if let Some(line) = line_of(rng, sheet, &operations) {
        sheet.lines[line][line::AUTOMATON] = index(rng, sheet.automata.len());
    }
}

impl RuleSheet {
    /// Whether chains can be followed: every link leads upward to a record that is there.
    fn has_sound_links(&self) -> bool {
        let (states, edges) = (self.states.len(), self.edges.len());
        let is_number = |word: u16, last: usize| word >= 1 && usize::from(word) <= last;
        let is_link = |word: u16, own: usize, last: usize| {
            word == 0 || (usize::from(word) > own && usize::from(word) <= last)
        };
        let state_is_sound = |(place, state): (usize, &[u16; state::WORDS])| {
            is_number(state[state::FIRST_TRANSITION], edges)
                && is_link(state[state::NEXT], place + 1, states)
        };
        let mut edge_records = self.edges.iter().enumerate();
        self.automata
            .iter()
            .all(|automaton| is_number(automaton[automaton::FIRST_STATE], states))
            && self.states.iter().enumerate().all(state_is_sound)
            && edge_records.all(|(place, edge)| is_link(edge[transition::NEXT], place + 1, edges))
    }
}

/// One word of a sheet changed at random.
pub fn any_word(rng: &mut Rng, words: &mut [u16]) {
    if words.is_empty() {
        return;
    }
    let place = rng.below(words.len());
    let word = words[place];
    words[place] = match rng.below(6) {
        0 => word.wrapping_add(1),
        1 => word.wrapping_sub(1),
        2 => word ^ 1 << rng.below(u16::BITS as usize),
        3 => rng.below(20) as u16,
        4 => *rng.pick(words),
        _ => rng.word(),
    };
}

#[cfg(test)]
mod tests {
    use super::*;
    use crate::coverage::Coverage;
    use crate::generate::machines::machine_sheet;
    use crate::generate::rules::rule_sheet;
    use crate::{machine, rules};

    // Each fault is found by the question that it is aimed at, often enough to matter.
    #[test]
    fn machine_faults_reach_their_questions() {
        for (place, (question, fault)) in MACHINE_FAULTS.iter().enumerate() {
            let mut coverage = Coverage::new();
            for case in 0..400 {
                let mut rng = Rng::for_case(21 + place as u64, case);
                let mut sheet = machine_sheet(&mut rng);
                fault(&mut rng, &mut sheet);
                let refused = machine::refusal(&sheet.words()) == Some(*question);
                coverage.note(if refused { "reached" } else { "missed" });
            }
            coverage.require("reached", 80);
        }
    }

    #[test]
    fn rule_faults_reach_their_questions() {
        for (place, (question, fault)) in RULE_FAULTS.iter().enumerate() {
            let mut coverage = Coverage::new();
            for case in 0..400 {
                let mut rng = Rng::for_case(41 + place as u64, case);
                let mut sheet = rule_sheet(&mut rng);
                fault(&mut rng, &mut sheet);
                let refused = rules::refusal(&sheet.words()) == Some(*question);
                coverage.note(if refused { "reached" } else { "missed" });
            }
            assert!(
                coverage.count("reached") >= 20,
                "fault {place}, aimed at question {question}:\n{coverage}"
            );
        }
    }
}
