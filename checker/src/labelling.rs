//! Labelling: the rows of all lines, whether the rule is kept, the number of nodes where its last
//! line is true, and their whole percent, as the questions 1 to 17 allow it.

use crate::format::{rows_words, ROW_BITS, ROW_WORDS};
use crate::refusal::Refusal;
use crate::truth::Model;

#[derive(Clone, Copy, Debug, PartialEq, Eq)]
pub enum Labelling {
    Refused(Refusal),
    Done {
        kept: bool,
        count: usize,
        percent: usize,
    },
}

/// Labels two sheets. The rows are written as the proved code has to write them; a refusal and
/// the words past the rows leave the space as it is.
pub fn label(model: &Result<Model, Refusal>, space: &mut [u64]) -> Labelling {
    let model = match model {
        Ok(model) => model,
        Err(refusal) => return Labelling::Refused(*refusal),
    };
    if space.len() < rows_words(model.truth.len()) {
        return Labelling::Refused(Refusal::of(17));
    }
    for (row, words) in model.truth.iter().zip(space.chunks_exact_mut(ROW_WORDS)) {
        words.copy_from_slice(&row_words(row));
    }
    let rule = model.truth.last().map_or(&[][..], |row| row);
    let count = rule.iter().filter(|&&holds| holds).count();
    Labelling::Done {
        kept: model.keeps(),
        count,
        percent: percent(count, model.machine.nodes()),
    }
}

/// Node s is bit (s - 1) mod 64 of word (s - 1) div 64.
fn row_words(row: &[bool]) -> [u64; ROW_WORDS] {
    let mut words = [0; ROW_WORDS];
    for (node, _) in row.iter().enumerate().filter(|(_, &holds)| holds) {
        words[node / ROW_BITS] |= 1 << (node % ROW_BITS);
    }
    words
}

/// The whole percent of `count` among `nodes`, a half rounded to the even neighbour: of the whole
/// numbers the nearest, and of two that are equally near the even one.
fn percent(count: usize, nodes: usize) -> usize {
    (0..=100)
        .min_by_key(|p| ((p * nodes).abs_diff(100 * count), p % 2))
        .unwrap_or(0)
}

#[cfg(test)]
mod tests {
    use super::*;
    use crate::format::NODES;
    use crate::worked;
    use std::cmp::Ordering;

    #[test]
    fn marked_case_k_one_of_eight_nodes() {
        let model = Model::read(&worked::ring_of_eight(), &worked::signal_alone());
        let mut space = [u64::MAX; 4];
        let answer = label(&model, &mut space);
        let expected = Labelling::Done {
            kept: true,
            count: 1,
            percent: 12,
        };
        assert_eq!(answer, expected);
        assert_eq!(space, [1, 0, u64::MAX, u64::MAX]);
    }

    #[test]
    fn percents_round_a_half_to_the_even_neighbour() {
        let cases = [
            (0, 1, 0),
            (1, 1, 100),
            (1, 2, 50),
            (1, 3, 33),
            (2, 3, 67),
            (1, 8, 12),
            (3, 8, 38),
            (5, 8, 62),
            (7, 8, 88),
            (1, 40, 2),
            (3, 40, 8),
            (5, 40, 12),
            (39, 40, 98),
            (1, NODES, 1),
            (NODES - 1, NODES, 99),
            (NODES, NODES, 100),
            (49, 100, 49),
        ];
        for (count, nodes, expected) in cases {
            assert_eq!(percent(count, nodes), expected, "{count} of {nodes}");
        }
    }

    // By quotient and rest, as the request has it.
    #[test]
    fn every_percent_is_the_quotient_rounded() {
        let mut halves = [0, 0];
        for nodes in 1..=NODES {
            for count in 0..=nodes {
                let (quotient, rest) = (100 * count / nodes, 100 * count % nodes);
                let rounded = match (2 * rest).cmp(&nodes) {
                    Ordering::Less => quotient,
                    Ordering::Greater => quotient + 1,
                    Ordering::Equal => {
                        halves[quotient % 2] += 1;
                        quotient + quotient % 2
                    }
                };
                assert_eq!(percent(count, nodes), rounded, "{count} of {nodes}");
            }
        }
        assert!(halves[0] > 0 && halves[1] > 0, "halves of both kinds");
    }

    #[test]
    fn even_on_m3_is_kept() {
        let model = Model::read(&worked::m3(), &worked::even());
        let mut space = [7; 5];
        let answer = label(&model, &mut space);
        let expected = Labelling::Done {
            kept: true,
            count: 1,
            percent: 50,
        };
        assert_eq!(answer, expected);
        assert_eq!(space, [1, 0, 1, 0, 7]);
    }

    #[test]
    fn a_space_one_word_short_is_refused_and_left_alone() {
        let model = Model::read(&worked::m3(), &worked::even());
        let mut space = [7; 3];
        let answer = label(&model, &mut space);
        assert_eq!(answer, Labelling::Refused(Refusal::of(17)));
        assert_eq!(space, [7; 3]);
    }

    #[test]
    fn high_nodes_stand_in_the_second_word() {
        let mut row = vec![false; NODES];
        row[ROW_BITS - 1] = true;
        row[ROW_BITS] = true;
        row[NODES - 1] = true;
        let last = 1 << (ROW_BITS - 1);
        assert_eq!(row_words(&row), [last, last | 1]);
    }
}
