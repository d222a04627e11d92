//! Machine sheets: the questions 1 to 6 of the scope document, and the Kripke structure that an
//! accepted sheet describes.
//!
//! Records are numbered from 1 on the sheet. The structure's nodes count from 0, so that they
//! index its tables.

use crate::format::{
    edge, edges_from, machine_header, machine_words, node, EDGES, NODES, NODES_FROM, SIGNALS,
};

/// The number of the first question that says "no" to a machine sheet, if one does.
pub fn refusal(words: &[u16]) -> Option<u16> {
    let Some(sheet) = Sheet::with_header(words) else {
        return Some(1);
    };
    let questions: [Question<'_>; 5] = [
        (2, Sheet::has_exact_length),
        (3, Sheet::has_node_words_in_range),
        (4, Sheet::has_first_edges_in_range),
        (5, Sheet::has_edges_in_range),
        (6, Sheet::has_a_start),
    ];
    let refused = questions.iter().find(|(_, says_yes)| !says_yes(&sheet));
    refused.map(|(number, _)| *number)
}

/// Where the first of several sheets in one list of words ends by its own header: none if
/// question 1 says no.
pub fn end_by_header(words: &[u16]) -> Option<usize> {
    Sheet::with_header(words).map(|sheet| sheet.length())
}

/// A sheet to which question 1 says yes.
struct Sheet<'a> {
    words: &'a [u16],
    nodes: usize,
    signals: usize,
    edges: usize,
}

/// A question's number, and whether a sheet has what it asks for.
type Question<'a> = (u16, fn(&Sheet<'a>) -> bool);

impl<'a> Sheet<'a> {
    fn with_header(words: &'a [u16]) -> Option<Sheet<'a>> {
        let header = words.first_chunk::<{ machine_header::WORDS }>()?;
        let [nodes, signals, edges] = header.map(usize::from);
        let in_range = (1..=NODES).contains(&nodes)
            && (1..=SIGNALS).contains(&signals)
            && (1..=EDGES).contains(&edges);
        in_range.then_some(Sheet {
            words,
            nodes,
            signals,
            edges,
        })
    }

    fn length(&self) -> usize {
        machine_words(self.nodes, self.edges)
    }

    /// Signals, start flag and first edge of each node, in the order of the records.
    fn node_records(&self) -> impl Iterator<Item = [u16; node::WORDS]> + '_ {
        let records = self.words[NODES_FROM..edges_from(self.nodes)].chunks_exact(node::WORDS);
        records.map(|record| std::array::from_fn(|word| record[word]))
    }

    /// Target and next edge of each edge, in the order of the records.
    fn edge_records(&self) -> impl Iterator<Item = [u16; edge::WORDS]> + '_ {
        let records = self.words[edges_from(self.nodes)..self.length()].chunks_exact(edge::WORDS);
        records.map(|record| std::array::from_fn(|word| record[word]))
    }

    fn has_exact_length(&self) -> bool {
        self.words.len() == self.length()
    }

    fn has_node_words_in_range(&self) -> bool {
        self.node_records().all(|[signals, start, _]| {
            (self.signals..SIGNALS).all(|bit| signals >> bit & 1 == 0) && start <= 1
        })
    }

    fn has_first_edges_in_range(&self) -> bool {
        self.node_records()
            .all(|[_, _, first]| (1..=self.edges).contains(&usize::from(first)))
    }

    fn has_edges_in_range(&self) -> bool {
        self.edge_records()
            .enumerate()
            .all(|(index, [target, next])| {
                (1..=self.nodes).contains(&usize::from(target))
                    && link_in_range(usize::from(next), index + 1, self.edges)
            })
    }

    fn has_a_start(&self) -> bool {
        self.node_records().any(|[_, start, _]| start == 1)
    }
}

/// A link is zero, or above its own record's number and at most the last record's.
pub(crate) fn link_in_range(next: usize, own: usize, last: usize) -> bool {
    next == 0 || (next > own && next <= last)
}

/// The record numbers of a chain, in its order. Links that lead upward make it end.
pub(crate) fn chain(first: usize, next: impl Fn(usize) -> usize) -> Vec<usize> {
    let mut numbers = vec![first];
    let mut present = first;
    while next(present) != 0 {
        present = next(present);
        numbers.push(present);
    }
    numbers
}

/// The Kripke structure of an accepted machine sheet.
#[derive(Clone, Debug)]
pub struct Machine {
    /// The number of signals.
    pub signals: usize,
    /// The signal word of each node: bit i - 1 is signal i.
    pub labels: Vec<u16>,
    pub starts: Vec<bool>,
    /// The relation R: the targets of each node in ascending order, none twice.
    pub successors: Vec<Vec<usize>>,
}

impl Machine {
    /// The structure, or the number of the question that refuses the sheet.
    pub fn read(words: &[u16]) -> Result<Machine, u16> {
        match (refusal(words), Sheet::with_header(words)) {
            (None, Some(sheet)) => Ok(Machine::of(&sheet)),
            (number, _) => Err(number.unwrap_or(1)),
        }
    }

    fn of(sheet: &Sheet) -> Machine {
        let nodes: Vec<[u16; node::WORDS]> = sheet.node_records().collect();
        let edges: Vec<[usize; edge::WORDS]> =
            sheet.edge_records().map(|r| r.map(usize::from)).collect();
        Machine {
            signals: sheet.signals,
            labels: nodes.iter().map(|node| node[node::SIGNALS]).collect(),
            starts: nodes.iter().map(|node| node[node::START] == 1).collect(),
            successors: nodes
                .iter()
                .map(|node| targets(&edges, usize::from(node[node::FIRST_EDGE])))
                .collect(),
        }
    }

    pub fn nodes(&self) -> usize {
        self.labels.len()
    }
}

fn targets(edges: &[[usize; edge::WORDS]], first: usize) -> Vec<usize> {
    let numbers = chain(first, |number| edges[number - 1][edge::NEXT]);
    let mut targets: Vec<usize> = numbers
        .iter()
        .map(|&number| edges[number - 1][edge::TARGET] - 1)
        .collect();
    targets.sort_unstable();
    targets.dedup();
    targets
}

#[cfg(test)]
mod tests {
    use super::*;
    use crate::worked;

    #[test]
    fn the_worked_machines_are_accepted() {
        for words in [
            worked::m1(),
            worked::m2(),
            worked::m3(),
            worked::m5(),
            worked::m6(),
        ] {
            assert_eq!(refusal(&words), None, "{words:?}");
        }
    }

    #[test]
    fn marked_case_i_an_edge_linked_to_itself() {
        let mut words = worked::m1();
        words[edges_from(1) + edge::NEXT] = 1;
        assert_eq!(refusal(&words), Some(5));
    }

    #[test]
    fn marked_case_j_a_bit_of_a_signal_that_is_not_there() {
        let mut words = worked::m1();
        words[NODES_FROM + node::SIGNALS] = 2;
        assert_eq!(refusal(&words), Some(3));
    }

    #[test]
    fn short_sheets_and_wrong_lengths() {
        let words = worked::m2();
        for length in 0..words.len() {
            let expected = if length < machine_header::WORDS { 1 } else { 2 };
            assert_eq!(refusal(&words[..length]), Some(expected), "{length} words");
        }
        let mut longer = words.clone();
        longer.push(0);
        assert_eq!(refusal(&longer), Some(2));
    }

    #[test]
    fn a_machine_without_a_start() {
        let mut words = worked::m2();
        words[NODES_FROM + node::START] = 0;
        assert_eq!(refusal(&words), Some(6));
    }

    // The last record's fault belongs to an earlier question than the first record's.
    #[test]
    fn all_records_are_tried_before_the_next_question() {
        let mut words = worked::m2();
        words[NODES_FROM + node::FIRST_EDGE] = 0;
        assert_eq!(refusal(&words), Some(4));
        words[NODES_FROM + node::WORDS + node::START] = 2;
        assert_eq!(refusal(&words), Some(3));
    }

    #[test]
    fn shared_tails_and_repeated_targets_make_one_relation() {
        let words = [
            2, 1, 4, 1, 1, 1, 0, 0, 2, //
            2, 3, 1, 3, 2, 4, 2, 0,
        ];
        let machine = Machine::read(&words).expect("an accepted sheet");
        assert_eq!(machine.successors, [vec![1], vec![0, 1]]);
        assert_eq!(machine.starts, [true, false]);
        assert_eq!(machine.labels, [1, 0]);
    }
}
