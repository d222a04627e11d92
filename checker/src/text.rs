//! Sheets as text: decimal words with blanks and comments. What the program `sheet` prints for its
//! input, decided line by line and piece by piece.

use crate::format::{SHEETS_BYTES, SHEETS_WORDS, TEXT_BYTES, WORD_BYTES};
use crate::program::bytes;

/// What is wrong with a text.
#[derive(Clone, Copy, Debug, PartialEq, Eq)]
pub enum Kind {
    NotDecimal,
    Above,
    NoRoom,
}

/// A fault and its place; lines and columns count from 1, and columns count bytes.
#[derive(Clone, Copy, Debug, PartialEq, Eq)]
pub struct Fault {
    pub kind: Kind,
    pub line: usize,
    pub column: usize,
}

/// What the program writes: to standard output, and to standard error.
#[derive(Debug, PartialEq, Eq)]
pub struct Printed {
    pub out: Vec<u8>,
    pub error: String,
}

/// The words of a text, or its first fault.
pub fn reading(text: &[u8], room: usize) -> Result<Vec<u16>, Fault> {
    let mut words = Vec::new();
    for (above, line) in text.split(|&byte| byte == b'\n').enumerate() {
        let code = line.split(|&byte| byte == b'#').next().unwrap_or(line);
        for (before, piece) in pieces(code) {
            let fault = |kind, past| Fault {
                kind,
                line: above + 1,
                column: before + past + 1,
            };
            let digits = piece.iter().take_while(|byte| byte.is_ascii_digit());
            let (count, number) = digits.fold((0, 0u64), |(count, number), digit| {
                let longer = number
                    .saturating_mul(10)
                    .saturating_add((digit - b'0').into());
                (count + 1, longer)
            });
            if count == 0 {
                return Err(fault(Kind::NotDecimal, 0));
            }
            if words.len() == room {
                return Err(fault(Kind::NoRoom, 0));
            }
            let Ok(word) = u16::try_from(number) else {
                return Err(fault(Kind::Above, 0));
            };
            if count < piece.len() {
                return Err(fault(Kind::NotDecimal, count));
            }
            words.push(word);
        }
    }
    Ok(words)
}

/// The pieces of a line between blanks, each with the number of bytes before it.
fn pieces(line: &[u8]) -> Vec<(usize, &[u8])> {
    let mut found = Vec::new();
    let mut before = 0;
    for piece in line.split(|byte| b" \t\r".contains(byte)) {
        if !piece.is_empty() {
            found.push((before, piece));
        }
        before += piece.len() + 1;
    }
    found
}

/// The text of words: ten to a line, a newline at the end.
pub fn text(words: &[u16]) -> String {
    words
        .chunks(10)
        .map(|line| {
            let numbers: Vec<String> = line.iter().map(u16::to_string).collect();
            numbers.join(" ") + "\n"
        })
        .collect()
}

/// What `sheet bytes` prints for a text.
pub fn to_bytes(text: &[u8]) -> Printed {
    if text.len() > TEXT_BYTES {
        return wrong(format!("more than {TEXT_BYTES} bytes\n"));
    }
    match reading(text, SHEETS_WORDS) {
        Ok(words) => right(bytes(&words)),
        Err(Fault { kind, line, column }) => {
            let said = match kind {
                Kind::NotDecimal => "this is not a decimal number".to_string(),
                Kind::Above => "the number is above 65535".to_string(),
                Kind::NoRoom => format!("more than {SHEETS_WORDS} words"),
            };
            wrong(format!("line {line}, column {column}: {said}\n"))
        }
    }
}

/// What `sheet text` prints for a sheet's bytes.
pub fn to_text(sheet: &[u8]) -> Printed {
    if sheet.len() > SHEETS_BYTES {
        return wrong(format!(
            "more than {SHEETS_BYTES} bytes, {SHEETS_WORDS} words\n"
        ));
    }
    if !sheet.len().is_multiple_of(WORD_BYTES) {
        return wrong("an odd number of bytes\n".to_string());
    }
    let words: Vec<u16> = sheet
        .chunks_exact(WORD_BYTES)
        .map(|two| u16::from_le_bytes([two[0], two[1]]))
        .collect();
    right(text(&words).into_bytes())
}

fn right(out: Vec<u8>) -> Printed {
    Printed {
        out,
        error: String::new(),
    }
}

fn wrong(error: String) -> Printed {
    Printed {
        out: Vec::new(),
        error,
    }
}

#[cfg(test)]
mod tests {
    use super::*;

    fn fault(kind: Kind, line: usize, column: usize) -> Result<Vec<u16>, Fault> {
        Err(Fault { kind, line, column })
    }

    #[test]
    fn words_with_blanks_and_comments() {
        assert_eq!(reading(b"7 08 # 9\n65535", 3), Ok(vec![7, 8, 65_535]));
        assert_eq!(reading(b"1#2\n", 1), Ok(vec![1]));
        assert_eq!(reading(b"\t1\r\n2\r\n# x\r\n", 2), Ok(vec![1, 2]));
        assert_eq!(reading(b" \n#", 0), Ok(vec![]));
        assert_eq!(reading(b"00000000000000000000000007", 1), Ok(vec![7]));
    }

    #[test]
    fn the_first_fault() {
        assert_eq!(reading(b"1\n 2x", 9), fault(Kind::NotDecimal, 2, 3));
        assert_eq!(reading(b"1\n-2", 9), fault(Kind::NotDecimal, 2, 1));
        assert_eq!(reading(b"0 65536", 9), fault(Kind::Above, 1, 3));
        assert_eq!(reading(b"99999x", 9), fault(Kind::Above, 1, 1));
        assert_eq!(reading(b"1 22", 1), fault(Kind::NoRoom, 1, 3));
        assert_eq!(reading(b"99999", 0), fault(Kind::NoRoom, 1, 1));
        assert_eq!(reading(b"x", 0), fault(Kind::NotDecimal, 1, 1));
        assert_eq!(
            reading(b"99999999999999999999999", 1),
            fault(Kind::Above, 1, 1)
        );
    }

    #[test]
    fn ten_words_to_a_line() {
        assert_eq!(text(&[]), "");
        assert_eq!(text(&[7, 0, 65_535]), "7 0 65535\n");
        assert_eq!(text(&[1; 11]), "1 1 1 1 1 1 1 1 1 1\n1\n");
    }
}
