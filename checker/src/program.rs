//! The comparing program: how its input is cut into two sheets, and the line that it prints.

use crate::compare::{settled, Answer};
use crate::format::{COMPARED_BYTES, WORD_BYTES};
use crate::machine::end_by_header;
use crate::refusal::Refusal;

/// The line that the program prints for its input, with its newline.
pub fn expected_output(input: &[u8]) -> String {
    let Some(words) = words(input, COMPARED_BYTES) else {
        return "refused 0 0\n".to_string();
    };
    let (first, second) = cut(&words);
    match settled(first, second, usize::MAX) {
        Answer::Equal => "equal\n".to_string(),
        Answer::Unequal => "unequal\n".to_string(),
        Answer::Refused(Refusal { question, sheet }) => format!("refused {question} {sheet}\n"),
    }
}

/// The words of an input, low byte first, unless it is odd or has more bytes than `most`.
pub fn words(input: &[u8], most: usize) -> Option<Vec<u16>> {
    let whole = input.len().is_multiple_of(WORD_BYTES) && input.len() <= most;
    let pairs = input.chunks_exact(WORD_BYTES);
    whole.then(|| {
        pairs
            .map(|two| u16::from_le_bytes([two[0], two[1]]))
            .collect()
    })
}

/// The first sheet ends where its header says, if question 1 says yes and the words reach that
/// far; else it has all the words.
pub fn cut(words: &[u16]) -> (&[u16], &[u16]) {
    match end_by_header(words) {
        Some(end) if end <= words.len() => words.split_at(end),
        _ => (words, &[]),
    }
}

/// The bytes of words, low byte first.
pub fn bytes(words: &[u16]) -> Vec<u8> {
    words.iter().flat_map(|word| word.to_le_bytes()).collect()
}

#[cfg(test)]
mod tests {
    use super::*;
    use crate::worked;

    fn printed(words: &[Vec<u16>]) -> String {
        expected_output(&bytes(&words.concat()))
    }

    #[test]
    fn marked_case_a_prints_equal() {
        assert_eq!(printed(&[worked::m1(), worked::m2()]), "equal\n");
    }

    #[test]
    fn the_low_byte_comes_first() {
        assert_eq!(bytes(&[0x0102, 3]), [2, 1, 3, 0]);
        assert_eq!(words(&[2, 1, 3, 0], 4), Some(vec![0x0102, 3]));
        assert_eq!(words(&[2, 1, 3, 0], 3), None);
    }

    #[test]
    fn the_other_lines() {
        assert_eq!(printed(&[worked::m5(), worked::m6()]), "unequal\n");
        assert_eq!(printed(&[worked::m1()]), "refused 1 2\n");
        assert_eq!(printed(&[]), "refused 1 1\n");
        assert_eq!(printed(&[worked::m1(), worked::m5()]), "refused 20 0\n");
        assert_eq!(printed(&[vec![0, 1, 1], worked::m1()]), "refused 1 1\n");
        assert_eq!(printed(&[vec![9, 1, 1], worked::m1()]), "refused 2 1\n");
        let twice = [worked::m1(), worked::m2(), vec![0]];
        assert_eq!(printed(&twice), "refused 2 2\n");
    }

    #[test]
    fn odd_and_long_inputs() {
        assert_eq!(expected_output(&[1]), "refused 0 0\n");
        assert_eq!(expected_output(&[0; COMPARED_BYTES]), "refused 1 1\n");
        assert_eq!(expected_output(&[0; COMPARED_BYTES + 1]), "refused 0 0\n");
        assert_eq!(expected_output(&[0; COMPARED_BYTES + 2]), "refused 0 0\n");
    }
}
