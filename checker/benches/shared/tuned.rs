//! Tuned Rust for the same jobs, over sets of nodes in 128-bit numbers: what the proved code is measured against. It takes accepted
//! sheets, checks nothing, and writes no rule.

use checker::format::{
    automaton, edge, line, machine_header, node, operation, rule_header, state, transition,
    AUTOMATA_FROM, AUTOMATON_STATES, NODES, NODES_FROM, VALUATIONS,
};

/// What a machine sheet describes, as sets of nodes.
pub struct Structure {
    nodes: usize,
    /// For each signal, the nodes where it is on.
    signals: Vec<u128>,
    starts: u128,
    /// For each node, the nodes that its edges lead to.
    targets: Vec<u128>,
    /// For each node, the nodes whose edges lead to it.
    sources: Vec<u128>,
}

impl Structure {
    pub fn read(sheet: &[u16]) -> Structure {
        let nodes = usize::from(sheet[machine_header::NODES]);
        let (records, edges) = sheet[NODES_FROM..].split_at(node::WORDS * nodes);
        let mut read = Structure {
            nodes,
            signals: vec![0; usize::from(sheet[machine_header::SIGNALS])],
            starts: 0,
            targets: vec![0; nodes],
            sources: vec![0; nodes],
        };
        for (node, record) in records.chunks_exact(node::WORDS).enumerate() {
            for (signal, set) in read.signals.iter_mut().enumerate() {
                *set |= u128::from(record[node::SIGNALS] >> signal & 1) << node;
            }
            read.starts |= u128::from(record[node::START]) << node;
            let mut edge = usize::from(record[node::FIRST_EDGE]);
            while edge != 0 {
                let first = edge::WORDS * (edge - 1);
                let target = usize::from(edges[first + edge::TARGET]) - 1;
                read.targets[node] |= 1 << target;
                if cfg!(feature = "gathered") {
                    read.sources[target] |= 1 << node;
                }
                edge = usize::from(edges[first + edge::NEXT]);
            }
        }
        if !cfg!(feature = "gathered") {
            read.test_all_pairs();
        }
        read
    }

    /// Finds the sources as the code with which the aims were set does. With the feature `gathered` they are found while the chains
    /// are read, which is faster.
    fn test_all_pairs(&mut self) {
        for source in 0..self.nodes {
            for target in 0..self.nodes {
                if self.targets[source] >> target & 1 == 1 {
                    self.sources[target] |= 1 << source;
                }
            }
        }
    }

    fn all(&self) -> u128 {
        first_nodes(self.nodes)
    }
}

fn first_nodes(nodes: usize) -> u128 {
    u128::MAX >> (NODES - nodes)
}

/// The nodes with an edge into the set.
fn into(sources: &[u128], mut set: u128) -> u128 {
    let mut found = 0;
    while set != 0 {
        found |= sources[set.trailing_zeros() as usize];
        set &= set - 1;
    }
    found
}

/// Whether two machines with as many signals and no more nodes in all than two can have keep the same rules: their nodes, the first machine's
/// lowest, in blocks that are split until nothing splits one.
pub fn equal(first: &Structure, second: &Structure) -> bool {
    let shift = first.nodes;
    let beside = |one: u128, other: u128| one | other << shift;
    let mut sources = first.sources.clone();
    sources.extend(second.sources.iter().map(|&set| beside(0, set)));
    let mut blocks = vec![first_nodes(shift + second.nodes)];
    for (&one, &other) in first.signals.iter().zip(&second.signals) {
        split(&mut blocks, beside(one, other), |_, _| ());
    }
    let mut owed: Vec<usize> = (0..blocks.len()).collect();
    let mut is_owed = vec![true; blocks.len()];
    while let Some(splitter) = owed.pop() {
        is_owed[splitter] = false;
        let set = into(&sources, blocks[splitter]);
        split(&mut blocks, set, |kept, added| {
            is_owed.push(true);
            owed.push(added);
            if !is_owed[kept] {
                is_owed[kept] = true;
                owed.push(kept);
            }
        });
    }
    let (one, other) = (first.starts, beside(0, second.starts));
    blocks
        .iter()
        .all(|block| (block & one != 0) == (block & other != 0))
}

/// Splits each block that has nodes in the set and nodes outside it: those inside stay, the others come after the last block.
fn split(blocks: &mut Vec<u128>, set: u128, mut told: impl FnMut(usize, usize)) {
    for block in 0..blocks.len() {
        let (inside, outside) = (blocks[block] & set, blocks[block] & !set);
        if inside != 0 && outside != 0 {
            blocks[block] = inside;
            blocks.push(outside);
            told(block, blocks.len() - 1);
        }
    }
}

/// The truth rows of a rule sheet, a set of nodes a line.
pub fn label(machine: &Structure, sheet: &[u16]) -> Vec<u128> {
    let rules = Rules::read(sheet);
    let lines = rules.lines.chunks_exact(line::WORDS);
    let mut rows: Vec<u128> = Vec::with_capacity(lines.len());
    for line in lines {
        let row = |place: usize| rows[usize::from(line[place]) - 1];
        rows.push(match line[line::OPERATION] {
            operation::SIGNAL => machine.signals[usize::from(line[line::SIGNAL]) - 1],
            operation::NOT => machine.all() & !row(line::ONE),
            operation::OR => row(line::ONE) | row(line::OTHER),
            operation => {
                let automaton = usize::from(line[line::AUTOMATON]) - 1;
                let places = line::ARGUMENTS..line::ARGUMENTS + rules.variables(automaton);
                let arguments = places.map(row);
                let moves = Moves::read(&rules, automaton, machine, arguments);
                moves.path_row(machine, operation == operation::SOME_PATH)
            }
        });
    }
    rows
}

/// The records of a rule sheet.
struct Rules<'a> {
    automata: &'a [u16],
    states: &'a [u16],
    edges: &'a [u16],
    lines: &'a [u16],
}

impl<'a> Rules<'a> {
    fn read(sheet: &'a [u16]) -> Rules<'a> {
        let [automata, states, edges] = [
            rule_header::AUTOMATA,
            rule_header::STATES,
            rule_header::TRANSITIONS,
        ]
        .map(|place| usize::from(sheet[place]));
        let (automata, rest) = sheet[AUTOMATA_FROM..].split_at(automaton::WORDS * automata);
        let (states, rest) = rest.split_at(state::WORDS * states);
        let (edges, lines) = rest.split_at(transition::WORDS * edges);
        Rules {
            automata,
            states,
            edges,
            lines,
        }
    }

    fn variables(&self, automaton: usize) -> usize {
        usize::from(self.automata[automaton::WORDS * automaton + automaton::VARIABLES])
    }

    fn first_state(&self, automaton: usize) -> usize {
        usize::from(self.automata[automaton::WORDS * automaton + automaton::FIRST_STATE])
    }

    fn state(&self, number: usize) -> &'a [u16] {
        &self.states[state::WORDS * (number - 1)..state::WORDS * number]
    }

    fn edge(&self, number: usize) -> &'a [u16] {
        &self.edges[transition::WORDS * (number - 1)..transition::WORDS * number]
    }
}

/// The moves of an automaton on a machine. Its states are places on its chain.
struct Moves {
    accepting: Vec<bool>,
    /// For each two states, the nodes where the first goes to the second.
    nodes: Vec<u128>,
}

impl Moves {
    fn read(
        rules: &Rules,
        automaton: usize,
        machine: &Structure,
        arguments: impl Iterator<Item = u128>,
    ) -> Moves {
        let valued = by_valuation(machine.all(), arguments);
        let mut chain = Vec::with_capacity(AUTOMATON_STATES);
        let mut number = rules.first_state(automaton);
        while number != 0 {
            chain.push(number);
            number = usize::from(rules.state(number)[state::NEXT]);
        }
        let states = chain.len();
        let mut moves = Moves {
            accepting: Vec::with_capacity(states),
            nodes: vec![0; states * states],
        };
        for (from, &number) in chain.iter().enumerate() {
            let state = rules.state(number);
            moves.accepting.push(state[state::ACCEPTING] == 1);
            let mut edge = usize::from(state[state::FIRST_TRANSITION]);
            while edge != 0 {
                let record = rules.edge(edge);
                let target = usize::from(record[transition::TARGET]);
                let to = chain.iter().position(|&state| state == target);
                let nodes = &mut moves.nodes[from * states + to.expect("on the chain")];
                for (valuation, set) in valued.iter().enumerate() {
                    if record[transition::MASK] >> valuation & 1 == 1 {
                        *nodes |= set;
                    }
                }
                edge = usize::from(record[transition::NEXT]);
            }
        }
        moves
    }

    fn states(&self) -> usize {
        self.accepting.len()
    }

    /// The nodes from which some path visits good states without end: first the pairs that can stay among good states for ever, then
    /// all that reach them.
    fn path_row(&self, machine: &Structure, good: bool) -> u128 {
        let all = machine.all();
        let states = self.accepting.iter();
        let good: Vec<u128> = states
            .map(|&accepting| if accepting == good { all } else { 0 })
            .collect();
        let staying = self.staying(machine, good);
        self.reaching(machine, staying)[0]
    }

    /// Of pairs of a node and a state, those with an endless path among them; a pair is looked at again when a next pair is gone.
    fn staying(&self, machine: &Structure, mut pairs: Vec<u128>) -> Vec<u128> {
        let states = self.states();
        let mut doubtful = pairs.clone();
        loop {
            let mut gone = vec![0; states];
            let mut some = false;
            for state in 0..states {
                let moves = &self.nodes[state * states..][..states];
                let mut left = doubtful[state] & pairs[state];
                while left != 0 {
                    let node = left.trailing_zeros() as usize;
                    left &= left - 1;
                    let stays = moves.iter().zip(&pairs).any(|(nodes, pairs)| {
                        nodes >> node & 1 == 1 && machine.targets[node] & pairs != 0
                    });
                    if !stays {
                        gone[state] |= 1 << node;
                        some = true;
                    }
                }
            }
            if !some {
                return pairs;
            }
            for (pairs, gone) in pairs.iter_mut().zip(&gone) {
                *pairs &= !gone;
            }
            doubtful = self.before(machine, &gone);
        }
    }

    /// Pairs of a node and a state with a path into the given ones.
    fn reaching(&self, machine: &Structure, mut pairs: Vec<u128>) -> Vec<u128> {
        let mut new = pairs.clone();
        loop {
            new = self.before(machine, &new);
            let mut some = false;
            for (new, pairs) in new.iter_mut().zip(&mut pairs) {
                *new &= !*pairs;
                *pairs |= *new;
                some |= *new != 0;
            }
            if !some {
                return pairs;
            }
        }
    }

    /// The pairs that go to one of the given ones in a step.
    fn before(&self, machine: &Structure, pairs: &[u128]) -> Vec<u128> {
        let states = self.states();
        let mut found = vec![0; states];
        for (to, &nodes) in pairs.iter().enumerate() {
            if nodes != 0 {
                let sources = into(&machine.sources, nodes);
                for (from, found) in found.iter_mut().enumerate() {
                    *found |= self.nodes[from * states + to] & sources;
                }
            }
        }
        found
    }
}

/// For each valuation of the argument lines, the nodes that have it.
fn by_valuation(all: u128, arguments: impl Iterator<Item = u128>) -> Vec<u128> {
    let mut sets = Vec::with_capacity(VALUATIONS);
    sets.push(all);
    for row in arguments {
        for place in 0..sets.len() {
            sets.push(sets[place] & row);
            sets[place] &= !row;
        }
    }
    sets
}
