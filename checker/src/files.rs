//! What `compare.sh` tells of two files, decided on each file by itself: a file is accepted as a machine sheet, refused as one, or a
//! text with a fault. Only where both are accepted are their words compared.

use crate::compare::{settled, Answer};
use crate::format::SHEETS_BYTES;
use crate::machine;
use crate::program::words;
use crate::refusal::Refusal;
use crate::text::to_bytes;

/// A file under the name that the script is given. A name that ends in .txt makes it a text; any other file is 16-bit words.
#[derive(Clone, Debug, PartialEq, Eq)]
pub struct File {
    pub name: String,
    pub content: Vec<u8>,
}

/// What a file is by itself.
#[derive(Clone, Debug, PartialEq, Eq)]
pub enum Checked {
    Accepted(Vec<u16>),
    /// By a question of the only machine sheet, or by question 0 where the bytes are odd or too many.
    Refused(Refusal),
    /// A text with a fault, and what is said of it.
    Faulty(String),
}

/// What the script prints: the first line of its output, all of its errors, and its exit status.
#[derive(Clone, Debug, PartialEq, Eq)]
pub struct Told {
    pub line: String,
    pub errors: String,
    pub status: i32,
}

impl File {
    pub fn checked(&self) -> Checked {
        let words = match self.name.ends_with(".txt") {
            false => words(&self.content, SHEETS_BYTES),
            true => {
                let printed = to_bytes(&self.content);
                if !printed.error.is_empty() {
                    return Checked::Faulty(printed.error);
                }
                words(&printed.out, SHEETS_BYTES)
            }
        };
        let Some(words) = words else {
            return Checked::Refused(Refusal::of(0));
        };
        match machine::refusal(&words) {
            Some(question) => Checked::Refused(Refusal::of_machine(question, 1)),
            None => Checked::Accepted(words),
        }
    }

    /// Its words, or what is told where it is not accepted.
    fn accepted(&self) -> Result<Vec<u16>, Told> {
        let name = &self.name;
        let (line, errors) = match self.checked() {
            Checked::Accepted(words) => return Ok(words),
            Checked::Refused(refusal) => (format!("{name}: {}", line(refusal)), String::new()),
            Checked::Faulty(fault) => (String::new(), format!("{name}: {fault}")),
        };
        Err(Told {
            line,
            errors,
            status: 1,
        })
    }
}

/// What is to be told of two files. The first one that is not accepted is named, and nothing is compared.
pub fn told(first: &File, second: &File) -> Told {
    let sheets = match (first.accepted(), second.accepted()) {
        (Err(told), _) | (_, Err(told)) => return told,
        (Ok(first), Ok(second)) => [first, second],
    };
    let line = match settled(&sheets[0], &sheets[1], usize::MAX) {
        Answer::Equal => "equal".to_string(),
        Answer::Unequal => "unequal".to_string(),
        Answer::Refused(refusal) => line(refusal),
    };
    Told {
        line,
        errors: String::new(),
        status: 0,
    }
}

fn line(Refusal { question, sheet }: Refusal) -> String {
    format!("refused {question} {sheet}")
}

/// Says what is wrong with what the script printed. After the first line of its output the same is said in words.
pub fn judge(expected: &Told, out: &str, errors: &str, status: Option<i32>) -> Result<(), String> {
    let told = Told {
        line: out.lines().next().unwrap_or("").to_string(),
        errors: errors.to_string(),
        status: status.ok_or("the script was ended")?,
    };
    if told != *expected {
        return Err(format!("{told:?}, where {expected:?} is right"));
    }
    match out.is_empty() || out.lines().nth(1).is_some_and(|words| !words.is_empty()) {
        true => Ok(()),
        false => Err(format!("nothing is said in words: {out:?}")),
    }
}

#[cfg(test)]
mod tests {
    use super::*;
    use crate::program::bytes;
    use crate::worked;

    fn sheet(name: &str, content: &[u8]) -> File {
        File {
            name: name.to_string(),
            content: content.to_vec(),
        }
    }

    fn line_for(first: &[u8], second: &[u8]) -> String {
        told(&sheet("A", first), &sheet("B", second)).line
    }

    // Together they are the bytes of M1 and M2, which are equal.
    #[test]
    fn a_byte_that_stands_in_the_other_file() {
        let (mut first, mut second) = (bytes(&worked::m1()), bytes(&worked::m2()));
        assert_eq!(line_for(&first, &second), "equal");
        first.push(second.remove(0));
        assert_eq!(line_for(&first, &second), "A: refused 0 0");
        assert_eq!(line_for(&bytes(&worked::m1()), &second), "B: refused 0 0");
    }

    #[test]
    fn each_file_has_its_own_answer() {
        let [m1, m5, m6] = [worked::m1(), worked::m5(), worked::m6()].map(|words| bytes(&words));
        assert_eq!(line_for(&m5, &m6), "unequal");
        assert_eq!(line_for(&m1, &m6), "refused 20 0");
        assert_eq!(line_for(&m1, &[]), "B: refused 1 1");
        assert_eq!(line_for(&[], &[]), "A: refused 1 1");
        assert_eq!(line_for(&m1[..14], &m1), "A: refused 2 1");
        assert_eq!(line_for(&m1, &vec![1; SHEETS_BYTES]), "B: refused 1 1");
        assert_eq!(line_for(&m1, &vec![1; SHEETS_BYTES + 2]), "B: refused 0 0");
    }

    #[test]
    fn a_fault_in_a_text() {
        let m1 = sheet("M1.txt", b"1 1 1, 1 1 1, 1 0");
        let expected = Told {
            line: String::new(),
            errors: "M1.txt: line 1, column 6: this is not a decimal number\n".to_string(),
            status: 1,
        };
        assert_eq!(told(&m1, &m1), expected);
        assert_eq!(judge(&expected, "", &expected.errors, Some(1)), Ok(()));
        assert!(judge(&expected, "", "", Some(1)).is_err());
        assert!(judge(&expected, "equal\n", &expected.errors, Some(1)).is_err());
    }

    #[test]
    fn what_the_script_prints_is_judged() {
        let m1 = sheet("M1.txt", b"1 1 1 1 1 1 1 0 # M1\n");
        let equal = told(&m1, &sheet("M1", &bytes(&worked::m1())));
        assert_eq!(judge(&equal, "equal\nThe two ..\n", "", Some(0)), Ok(()));
        assert!(judge(&equal, "equal\n", "", Some(0)).is_err());
        assert!(judge(&equal, "equal\nThe two ..\n", "", Some(1)).is_err());
        assert!(judge(&equal, "equal\nThe two ..\n", "", None).is_err());
        assert!(judge(&equal, "equal\nThe two ..\n", "?", Some(0)).is_err());
        assert!(judge(&equal, "unequal\nThe two ..\n", "", Some(0)).is_err());
    }
}
