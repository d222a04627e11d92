//! Every number of the sheet format that the checker counts by: the limits, the words of headers and records and the places of their
//! parts, where records begin, how long a sheet is, the space and the head of a written rule, the rows, and what the programs read.
//!
//! They are the checker's own. They are taken from the scope document and not from the proved code, so that a number that is wrong there
//! is not wrong here too. What the document calls the edges of a rule sheet are transitions here, apart from the edges of a machine.

// ---- limits

/// The limits of question 1.
pub const NODES: usize = 128;
pub const SIGNALS: usize = 16;
pub const EDGES: usize = 2_048;

/// The limits of question 7.
pub const AUTOMATA: usize = 16;
pub const STATES: usize = 256;
pub const TRANSITIONS: usize = 1_024;
pub const LINES: usize = 1_024;

/// The limit of question 9.
pub const VARIABLES: usize = 4;

/// The most valuations of an automaton, and so the bits of a mask.
pub const VALUATIONS: usize = 1 << VARIABLES;

/// The limit of question 12 on the states of one automaton.
pub const AUTOMATON_STATES: usize = 16;

/// The limit of question 21 on the nodes of both machines. The document gives it apart from that of question 1.
pub const BOTH_NODES: usize = 128;

// ---- headers and records: how many words, and which word is what

/// The header of a machine sheet.
pub mod machine_header {
    pub const WORDS: usize = 3;
    pub const NODES: usize = 0;
    pub const SIGNALS: usize = 1;
    pub const EDGES: usize = 2;
}

pub mod node {
    pub const WORDS: usize = 3;
    pub const SIGNALS: usize = 0;
    pub const START: usize = 1;
    pub const FIRST_EDGE: usize = 2;
}

pub mod edge {
    pub const WORDS: usize = 2;
    pub const TARGET: usize = 0;
    pub const NEXT: usize = 1;
}

/// The header of a rule sheet.
pub mod rule_header {
    pub const WORDS: usize = 4;
    pub const AUTOMATA: usize = 0;
    pub const STATES: usize = 1;
    pub const TRANSITIONS: usize = 2;
    pub const LINES: usize = 3;
}

pub mod automaton {
    pub const WORDS: usize = 2;
    pub const VARIABLES: usize = 0;
    pub const FIRST_STATE: usize = 1;
}

pub mod state {
    pub const WORDS: usize = 3;
    pub const ACCEPTING: usize = 0;
    pub const FIRST_TRANSITION: usize = 1;
    pub const NEXT: usize = 2;
}

pub mod transition {
    pub const WORDS: usize = 3;
    pub const TARGET: usize = 0;
    pub const MASK: usize = 1;
    pub const NEXT: usize = 2;
}

/// What the words after the operation are depends on it: a signal, one line, two lines, or an automaton and its arguments.
pub mod line {
    pub const WORDS: usize = 6;
    pub const OPERATION: usize = 0;
    pub const SIGNAL: usize = 1;
    pub const ONE: usize = 1;
    pub const OTHER: usize = 2;
    pub const AUTOMATON: usize = 1;
    pub const ARGUMENTS: usize = 2;
}

/// The operations of lines, as their records hold them.
pub mod operation {
    pub const SIGNAL: u16 = 0;
    pub const NOT: u16 = 1;
    pub const OR: u16 = 2;
    /// On some path the automaton accepts.
    pub const SOME_PATH: u16 = 3;
    /// On some path it does not.
    pub const SOME_PATH_NOT: u16 = 4;
}

// ---- where the records of each kind begin, and how long a sheet is

pub const NODES_FROM: usize = machine_header::WORDS;

pub const fn edges_from(nodes: usize) -> usize {
    NODES_FROM + node::WORDS * nodes
}

/// The words of a machine sheet.
pub const fn machine_words(nodes: usize, edges: usize) -> usize {
    edges_from(nodes) + edge::WORDS * edges
}

pub const AUTOMATA_FROM: usize = rule_header::WORDS;

pub const fn states_from(automata: usize) -> usize {
    AUTOMATA_FROM + automaton::WORDS * automata
}

pub const fn transitions_from(automata: usize, states: usize) -> usize {
    states_from(automata) + state::WORDS * states
}

pub const fn lines_from(automata: usize, states: usize, transitions: usize) -> usize {
    transitions_from(automata, states) + transition::WORDS * transitions
}

/// The words of a rule sheet.
pub const fn rule_words(automata: usize, states: usize, transitions: usize, lines: usize) -> usize {
    lines_from(automata, states, transitions) + line::WORDS * lines
}

/// The words of the longest machine sheet, of the longest rule sheet, and of one after the other.
pub const MACHINE_WORDS: usize = machine_words(NODES, EDGES);
pub const RULE_WORDS: usize = rule_words(AUTOMATA, STATES, TRANSITIONS, LINES);
pub const SHEETS_WORDS: usize = MACHINE_WORDS + RULE_WORDS;

// ---- written rules

/// The automaton Next of a written rule, its only one.
pub const NEXT_STATES: usize = 4;
pub const NEXT_TRANSITIONS: usize = 5;

/// The words of Next after the automaton record.
pub const NEXT_WORDS: usize = state::WORDS * NEXT_STATES + transition::WORDS * NEXT_TRANSITIONS;

/// The words of a written rule before its lines.
pub const WRITTEN_HEAD: usize = lines_from(1, NEXT_STATES, NEXT_TRANSITIONS);

/// The words of a written rule.
pub const fn written_words(lines: usize) -> usize {
    WRITTEN_HEAD + line::WORDS * lines
}

/// The most lines that a written rule has for each node of both machines.
pub const LINES_A_NODE: usize = 7;

/// The most lines of a written rule: one for each signal, and those for each node of both machines.
pub const fn written_lines(signals: usize, nodes: usize) -> usize {
    signals + LINES_A_NODE * nodes
}

/// The words that question 22 asks for.
pub const fn rule_space(signals: usize, nodes: usize) -> usize {
    written_words(written_lines(signals, nodes))
}

// ---- rows and paths

/// The words of a truth row, and the nodes that a word of it holds.
pub const ROW_WORDS: usize = 2;
pub const ROW_BITS: usize = 64;

/// The words that question 17 asks for.
pub const fn rows_words(lines: usize) -> usize {
    ROW_WORDS * lines
}

/// The most pairs that question 19 asks for: a path has no pair of a node and a state twice.
pub const PAIRS: usize = NODES * AUTOMATON_STATES;

// ---- programs

/// A word goes as two bytes, the low one first.
pub const WORD_BYTES: usize = 2;

/// The most bytes that the comparing program reads, and the explaining one.
pub const COMPARED_BYTES: usize = 20_000;

/// The most bytes that the programs read which take sheets of both kinds.
pub const SHEETS_BYTES: usize = WORD_BYTES * SHEETS_WORDS;

/// The most bytes of a text of decimal words.
pub const TEXT_BYTES: usize = 200_000;

#[cfg(test)]
mod tests {
    use super::*;

    // The sums that the document gives, or that follow from its formulas by hand.
    #[test]
    fn sums_by_hand() {
        assert_eq!(machine_words(2, 5), 3 + 3 * 2 + 2 * 5);
        assert_eq!(
            rule_words(1, 3, 4, 2),
            4 + 2 + 3 * 3 + 3 * 4 + 6 * 2,
            "the sheet of marked case (e)"
        );
        assert_eq!([MACHINE_WORDS, RULE_WORDS], [4_483, 10_020]);
        assert_eq!([SHEETS_WORDS, SHEETS_BYTES], [14_503, 29_006]);
        assert_eq!([NEXT_WORDS, WRITTEN_HEAD], [27, 33]);
        assert_eq!(rule_space(3, 11), 33 + 6 * (3 + 7 * 11));
        assert_eq!([rows_words(9), PAIRS, VALUATIONS], [18, 2_048, 16]);
        assert!(2 * WORD_BYTES * machine_words(BOTH_NODES / 2, EDGES) <= COMPARED_BYTES);
    }

    // A row has a bit for every node, and a line has a word for every argument.
    #[test]
    fn what_has_to_fit() {
        assert_eq!(ROW_WORDS * ROW_BITS, NODES);
        assert_eq!(line::ARGUMENTS + VARIABLES, line::WORDS);
        assert_eq!([SIGNALS, VALUATIONS], [u16::BITS as usize; 2]);
    }
}
