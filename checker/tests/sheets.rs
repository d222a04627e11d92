//! The proved sheet checks beside the checker's own reading of the questions 1 to 15, on valid
//! sheets of every shape and on damaged ones for every question at every limit.

mod exports;

use checker::coverage::Coverage;
use checker::generate::damage::{any_word, MACHINE_FAULTS, RULE_FAULTS};
use checker::generate::limits::{self, Lent};
use checker::generate::machines::machine_sheet;
use checker::generate::rules::rule_sheet;
use checker::generate::{MachineSheet, RuleSheet};
use checker::rng::Rng;
use checker::{machine, rules};
use std::io::Write;
use std::ops::RangeInclusive;

const MACHINE_SEED: u64 = 0x6d61_6368_696e_6501;
const RULE_SEED: u64 = 0x7275_6c65_7368_7401;
const RANDOM_MACHINES: u64 = 90_000;
const RANDOM_RULES: u64 = 120_000;

/// Past the test harness, which would swallow it: the seeds belong into every log.
fn log(text: &str) {
    writeln!(std::io::stderr(), "{text}").expect("standard error can be written");
}

/// What a sheet check is compared on: a grid of headers, small sheets with each word at each limit and cut everywhere, random sheets.
struct Sheets {
    seed: u64,
    headers: Vec<Vec<u16>>,
    small: fn(&mut Rng, usize) -> Vec<Vec<u16>>,
    random: fn(u64) -> Lent,
    cases: u64,
}

/// One of the two sheet checks, as the checker and as the proved code decide it.
struct Check {
    name: &'static str,
    expected: fn(&[u16]) -> Option<u16>,
    proved: fn(&[u16]) -> u16,
    seen: Coverage,
    sheets: usize,
}

impl Check {
    fn machines() -> Check {
        Check {
            name: "machine sheet",
            expected: machine::refusal,
            proved: exports::check_machine,
            seen: Coverage::new(),
            sheets: 0,
        }
    }

    fn rules() -> Check {
        Check {
            name: "rule sheet",
            expected: rules::refusal,
            proved: exports::check_rules,
            seen: Coverage::new(),
            sheets: 0,
        }
    }

    fn compare(&mut self, words: &[u16], origin: &str) {
        let expected = (self.expected)(words).unwrap_or(0);
        let proved = (self.proved)(words);
        let head = &words[..words.len().min(400)];
        assert_eq!(
            proved,
            expected,
            "{} from {origin}: the proved code answers {proved}, the checker {expected}, \
             on {} words: {head:?}",
            self.name,
            words.len()
        );
        self.sheets += 1;
        self.seen.note(&event(expected));
    }

    fn compare_all(&mut self, sheets: impl IntoIterator<Item = Vec<u16>>, origin: &str) {
        for words in sheets {
            self.compare(&words, origin);
        }
    }

    /// Compares on all the sheets, and requires that enough of each question were among them.
    fn run(mut self, sheets: Sheets, questions: RangeInclusive<u16>) {
        log(&format!("{}s: seed {:#x}", self.name, sheets.seed));
        self.compare_all(sheets.headers, "header grid");
        let small = (sheets.small)(&mut Rng::new(sheets.seed), 30);
        for (base, words) in small.iter().enumerate() {
            let origin = format!("small sheet {base}");
            self.compare_all(limits::each_word_at_each_limit(words), &origin);
            for lent in limits::cuts(words) {
                self.compare(lent.sheet(), &origin);
            }
        }
        for case in 0..sheets.cases {
            let lent = (sheets.random)(case);
            self.compare(lent.sheet(), &format!("random case {case}"));
        }
        assert!(self.sheets >= 100_000, "only {} sheets", self.sheets);
        self.require(questions);
    }

    /// Fails unless every question was the refusing one often, and acceptance very often.
    fn require(&self, questions: RangeInclusive<u16>) {
        log(&format!(
            "{}s: {} compared\n{}",
            self.name, self.sheets, self.seen
        ));
        self.seen.require(&event(0), 20_000);
        for question in questions {
            self.seen.require(&event(question), 800);
        }
    }
}

fn event(answer: u16) -> String {
    match answer {
        0 => "accepted".to_string(),
        question => format!("refused by question {question:>2}"),
    }
}

/// How many faults a random sheet gets: none, one, or two, where the earlier question counts.
fn fault_count(rng: &mut Rng) -> usize {
    *rng.pick(&[0, 1, 1, 2])
}

/// Turns a sheet's words into what is lent: whole, cut, longer, or with any word changed.
fn lend(rng: &mut Rng, mut words: Vec<u16>, faulty: bool) -> Lent {
    match rng.below(16) {
        0 if faulty => {
            let length = rng.below(words.len() + 1);
            Lent::cut(words, length)
        }
        1 if faulty => {
            words.push(rng.below(2) as u16);
            Lent::whole(rng, words)
        }
        2..=7 if faulty => {
            any_word(rng, &mut words);
            Lent::whole(rng, words)
        }
        _ => Lent::whole(rng, words),
    }
}

/// A question, and what makes a sheet fail it.
type Fault<S> = (u16, fn(&mut Rng, &mut S));

/// A random sheet with its faults, as it is lent.
fn random<S>(
    seed: u64,
    case: u64,
    make: fn(&mut Rng) -> S,
    faults: &[Fault<S>],
    words: fn(&S) -> Vec<u16>,
) -> Lent {
    let mut rng = Rng::for_case(seed, case);
    let mut sheet = make(&mut rng);
    let count = fault_count(&mut rng);
    for _ in 0..count {
        rng.pick(faults).1(&mut rng, &mut sheet);
    }
    lend(&mut rng, words(&sheet), count == 1)
}

fn random_machine(case: u64) -> Lent {
    random(
        MACHINE_SEED,
        case,
        machine_sheet,
        &MACHINE_FAULTS,
        MachineSheet::words,
    )
}

fn random_rules(case: u64) -> Lent {
    random(RULE_SEED, case, rule_sheet, &RULE_FAULTS, RuleSheet::words)
}

#[test]
fn machine_sheets() {
    Check::machines().run(
        Sheets {
            seed: MACHINE_SEED,
            headers: limits::machine_headers(),
            small: limits::small_machines,
            random: random_machine,
            cases: RANDOM_MACHINES,
        },
        1..=6,
    );
}

#[test]
fn rule_sheets() {
    Check::rules().run(
        Sheets {
            seed: RULE_SEED,
            headers: limits::rule_headers(),
            small: limits::small_rules,
            random: random_rules,
            cases: RANDOM_RULES,
        },
        7..=15,
    );
}
