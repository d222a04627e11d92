//! A refusal as the calls over two sheets answer it: the number of the question that says "no",
//! and which machine sheet it was asked of, 0 where it is not a question about one.

#[derive(Clone, Copy, Debug, PartialEq, Eq)]
pub struct Refusal {
    pub question: u16,
    pub sheet: u16,
}

impl Refusal {
    /// A question of the only machine sheet, of the first or of the second.
    pub fn of_machine(question: u16, sheet: u16) -> Refusal {
        Refusal { question, sheet }
    }

    /// A question that is not about a machine sheet.
    pub fn of(question: u16) -> Refusal {
        Refusal { question, sheet: 0 }
    }
}
