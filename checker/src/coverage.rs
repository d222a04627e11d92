//! An account of what a test reached, so that a generator that no longer reaches a question is
//! noticed and not taken for agreement.

use std::collections::BTreeMap;
use std::fmt::{Display, Formatter, Result};

/// How often each named event was seen.
#[derive(Default)]
pub struct Coverage {
    counts: BTreeMap<String, usize>,
}

impl Coverage {
    pub fn new() -> Coverage {
        Coverage::default()
    }

    pub fn note(&mut self, event: &str) {
        match self.counts.get_mut(event) {
            Some(count) => *count += 1,
            None => {
                self.counts.insert(event.to_string(), 1);
            }
        }
    }

    pub fn count(&self, event: &str) -> usize {
        self.counts.get(event).copied().unwrap_or(0)
    }

    /// Panics if an event was seen less often than it has to be.
    pub fn require(&self, event: &str, least: usize) {
        let count = self.count(event);
        assert!(
            count >= least,
            "'{event}' was seen {count} times, less than {least}; all that was seen:\n{self}"
        );
    }
}

impl Display for Coverage {
    fn fmt(&self, out: &mut Formatter) -> Result {
        for (event, count) in &self.counts {
            writeln!(out, "{count:>9}  {event}")?;
        }
        Ok(())
    }
}

#[cfg(test)]
mod tests {
    use super::*;

    #[test]
    fn counts_what_was_noted() {
        let mut coverage = Coverage::new();
        coverage.note("seen");
        coverage.note("seen");
        assert_eq!(coverage.count("seen"), 2);
        assert_eq!(coverage.count("unseen"), 0);
        coverage.require("seen", 2);
    }

    #[test]
    #[should_panic(expected = "'seen' was seen 1 times, less than 2")]
    fn refuses_what_was_seen_too_seldom() {
        let mut coverage = Coverage::new();
        coverage.note("seen");
        coverage.require("seen", 2);
    }
}
