//! The program `sheet`: texts turned into bytes and back, over the examples and over random texts and
//! sheets; single sheets checked, as bytes and as texts; and `compare.sh` on texts.

mod programs;

use checker::coverage::Coverage;
use checker::format::{SHEETS_BYTES, SHEETS_WORDS, TEXT_BYTES};
use checker::generate::damage::{MACHINE_FAULTS, RULE_FAULTS};
use checker::generate::machines::machine_sheet;
use checker::generate::rules::rule_sheet;
use checker::generate::texts;
use checker::program::{bytes, words};
use checker::rng::Rng;
use checker::text::{self, to_bytes, to_text, Printed};
use checker::{machine, rules, worked};
use std::fs;
use std::path::{Path, PathBuf};
use std::process::{Command, Output};
use std::time::Duration;

const SEED: u64 = 0x7368_6565_7401;
const CASES: u64 = 3_000;
const CHECKS: u64 = 1_500;

fn root() -> PathBuf {
    PathBuf::from(env!("CARGO_MANIFEST_DIR")).join("..")
}

fn example(name: &str) -> Vec<u8> {
    let file = root().join("examples").join(name);
    fs::read(&file).unwrap_or_else(|error| panic!("{}: {error}", file.display()))
}

fn run(arguments: &[&str], input: &[u8]) -> Printed {
    printed(programs::run("sheet", arguments, input))
}

fn printed(output: Output) -> Printed {
    let error = String::from_utf8(output.stderr).expect("the errors are in ASCII");
    Printed {
        out: output.stdout,
        error,
    }
}

/// Both sides in short, since a sheet has many bytes.
fn same(case: &str, printed: &Printed, expected: &Printed) {
    assert!(
        printed == expected,
        "{case}: {} bytes and {:?}, expected {} bytes and {:?}",
        printed.out.len(),
        printed.error,
        expected.out.len(),
        expected.error
    );
}

#[test]
fn the_examples_are_the_worked_sheets() {
    for (name, words) in [
        ("M1.txt", worked::m1()),
        ("M2.txt", worked::m2()),
        ("M3.txt", worked::m3()),
        ("M5.txt", worked::m5()),
        ("M6.txt", worked::m6()),
        ("even.txt", worked::even()),
        ("eight.txt", worked::ring_of_eight()),
    ] {
        let text = example(name);
        let sheet = run(&["bytes"], &text);
        same(name, &sheet, &to_bytes(&text));
        assert_eq!(sheet.out, checker::program::bytes(&words), "{name}");
        let back = run(&["text"], &sheet.out);
        same(name, &back, &to_text(&sheet.out));
        same(name, &run(&["bytes"], &back.out), &sheet);
    }
}

#[test]
fn random_texts() {
    let mut seen = Coverage::new();
    for case in 0..CASES {
        let text = texts::any(&mut Rng::for_case(SEED, case));
        let name = format!("seed {SEED:#x}, case {case}");
        let printed = run(&["bytes"], &text);
        same(&name, &printed, &to_bytes(&text));
        let said = printed.error.split(": ").nth(1).unwrap_or("words");
        seen.note(said.trim_end());
        if printed.error.is_empty() {
            let back = run(&["text"], &printed.out);
            same(&name, &back, &to_text(&printed.out));
            same(&name, &run(&["bytes"], &back.out), &printed);
        }
    }
    let too_many = format!("more than {SHEETS_WORDS} words");
    for (answer, least) in [
        ("words", 500),
        ("this is not a decimal number", 100),
        ("the number is above 65535", 100),
        (&too_many, 20),
    ] {
        seen.require(answer, least);
    }
}

#[test]
fn sizes_at_the_limit() {
    for length in [
        0,
        1,
        2,
        SHEETS_BYTES - 1,
        SHEETS_BYTES,
        SHEETS_BYTES + 1,
        90_000,
    ] {
        let sheet = vec![255u8; length];
        let name = format!("{length} bytes");
        same(&name, &run(&["text"], &sheet), &to_text(&sheet));
    }
    for length in [
        0,
        TEXT_BYTES - 1,
        TEXT_BYTES,
        TEXT_BYTES + 1,
        2 * TEXT_BYTES,
    ] {
        for byte in [b' ', b'#', b'0', b'\n'] {
            let mut text = vec![byte; length];
            if let Some(last) = text.last_mut() {
                *last = b'7';
            }
            let name = format!("{length} bytes");
            same(&name, &run(&["bytes"], &text), &to_bytes(&text));
        }
    }
}

/// Too many bytes for a text are refused at the first one too many, and not at the end of the input: whoever writes them may keep the
/// pipe open and wait for the answer. No contract says how much the program reads.
#[test]
fn too_many_bytes_are_refused_while_the_pipe_is_open() {
    for length in [SHEETS_BYTES + 1, SHEETS_BYTES + 2, 3 * SHEETS_BYTES] {
        let name = format!("{length} bytes and an open pipe");
        let sheet = vec![0u8; length];
        let output = programs::run_kept_open("sheet", &["text"], &sheet, Duration::from_secs(10))
            .unwrap_or_else(|| panic!("{name}: the program waits for more"));
        assert!(output.status.success(), "{name}");
        same(&name, &printed(output), &to_text(&sheet));
    }
}

/// One of the two checks: its word, its questions, and the number of its only sheet in a refusal.
struct Check {
    word: &'static str,
    refusal: fn(&[u16]) -> Option<u16>,
    sheet: u16,
}

const MACHINE: Check = Check {
    word: "machine",
    refusal: machine::refusal,
    sheet: 1,
};

const RULES: Check = Check {
    word: "rules",
    refusal: rules::refusal,
    sheet: 0,
};

impl Check {
    /// The first line for the bytes of a sheet.
    fn line(&self, sheet: &[u8]) -> String {
        let Some(words) = words(sheet, SHEETS_BYTES) else {
            return "refused 0 0".to_string();
        };
        match (self.refusal)(&words) {
            None => "accepted".to_string(),
            Some(question) => format!("refused {question} {}", self.sheet),
        }
    }

    /// Runs the program on the bytes of a sheet, and, where they are words, on its text too: the line,
    /// and for a refusal one line of words.
    fn run(&self, name: &str, sheet: &[u8], seen: &mut Coverage) {
        let line = self.line(sheet);
        seen.note(&line);
        let printed = run(&[self.word], sheet);
        self.judge(name, &line, &printed);
        if let Some(words) = words(sheet, SHEETS_BYTES) {
            let text = run(&[self.word, "text"], text::text(&words).as_bytes());
            assert_eq!(text, printed, "{name}, as text");
        }
    }

    fn judge(&self, name: &str, line: &str, printed: &Printed) {
        assert_eq!(printed.error, "", "{name}");
        let told = String::from_utf8_lossy(&printed.out);
        let lines: Vec<&str> = told.split_terminator('\n').collect();
        let question = line.split(' ').nth(1);
        match question {
            None => assert_eq!(lines, [line], "{name}"),
            Some(question) => {
                assert_eq!((lines[0], lines.len()), (line, 2), "{name}: {told}");
                let words = match question {
                    "0" => "refused: an odd number of bytes".to_string(),
                    _ => format!("refused: question {question}: "),
                };
                assert!(lines[1].starts_with(&words), "{name}: {told}");
            }
        }
    }
}

/// A sheet as it is, cut, or with bytes behind it, odd in number or not.
fn altered(rng: &mut Rng, mut sheet: Vec<u8>) -> Vec<u8> {
    match rng.below(8) {
        0 => sheet.truncate(rng.below(sheet.len() + 1)),
        1 => sheet.push(rng.word() as u8),
        2 => sheet.extend([0, 0]),
        _ => (),
    }
    sheet
}

#[test]
fn machine_sheets_are_checked() {
    let mut seen = Coverage::new();
    for case in 0..CHECKS {
        let mut rng = Rng::for_case(SEED + 1, case);
        let mut sheet = machine_sheet(&mut rng);
        if rng.below(2) == 0 {
            let (_, fault) = rng.pick(&MACHINE_FAULTS);
            fault(&mut rng, &mut sheet);
        }
        let sheet = altered(&mut rng, bytes(&sheet.words()));
        let name = format!("seed {:#x}, case {case}", SEED + 1);
        MACHINE.run(&name, &sheet, &mut seen);
    }
    for line in ["accepted", "refused 0 0", "refused 2 1", "refused 5 1"] {
        seen.require(line, 20);
    }
}

#[test]
fn rule_sheets_are_checked() {
    let mut seen = Coverage::new();
    for case in 0..CHECKS {
        let mut rng = Rng::for_case(SEED + 2, case);
        let mut sheet = rule_sheet(&mut rng);
        if rng.below(2) == 0 {
            let (_, fault) = rng.pick(&RULE_FAULTS);
            fault(&mut rng, &mut sheet);
        }
        let sheet = altered(&mut rng, bytes(&sheet.words()));
        let name = format!("seed {:#x}, case {case}", SEED + 2);
        RULES.run(&name, &sheet, &mut seen);
    }
    for line in ["accepted", "refused 0 0", "refused 8 0", "refused 13 0"] {
        seen.require(line, 20);
    }
}

#[test]
fn sheets_at_the_limit_are_checked() {
    let mut seen = Coverage::new();
    for check in [MACHINE, RULES] {
        for length in (0..9).chain(SHEETS_BYTES - 1..SHEETS_BYTES + 3) {
            check.run(&format!("{length} bytes"), &vec![1; length], &mut seen);
        }
        for length in [250_000, 250_001] {
            let printed = run(&[check.word], &vec![1; length]);
            check.judge("more bytes than are read", "refused 0 0", &printed);
            let text = run(&[check.word, "text"], &vec![b' '; length]);
            let long = Printed {
                out: vec![],
                error: format!("more than {TEXT_BYTES} bytes\n"),
            };
            same("a longer text", &text, &long);
        }
    }
}

#[test]
fn faults_of_checked_texts_are_those_of_turned_ones() {
    for case in 0..300 {
        let text = texts::any(&mut Rng::for_case(SEED + 3, case));
        let turned = to_bytes(&text);
        for check in [MACHINE, RULES] {
            let printed = run(&[check.word, "text"], &text);
            let name = format!("seed {:#x}, case {case}", SEED + 3);
            match turned.error.is_empty() {
                true => check.judge(&name, &check.line(&turned.out), &printed),
                false => same(&name, &printed, &turned),
            }
        }
    }
}

#[test]
fn other_arguments_get_the_usage() {
    let wrong: [&[&str]; 13] = [
        &["machines"],
        &["rule"],
        &["machine", "bytes"],
        &["text", "text"],
        &["text", "machine"],
        &["machine", "text", "text"],
        &["rules", "a longer word"],
        &[],
        &[""],
        &["byte"],
        &["texts"],
        &["bytes", "text"],
        &["a longer word"],
    ];
    for arguments in wrong {
        let printed = run(arguments, b"1 2 3");
        assert_eq!(printed.out, b"", "{arguments:?}");
        assert!(printed.error.starts_with("usage: sheet "), "{arguments:?}");
        assert_eq!(printed.error.lines().count(), 1, "{arguments:?}");
    }
}

fn compare(first: &Path, second: &Path) -> Output {
    Command::new("bash")
        .arg(root().join("compare.sh"))
        .args([first, second])
        .output()
        .expect("bash runs")
}

#[test]
fn texts_are_compared() {
    let text = |name: &str| root().join("examples").join(name);
    for (first, second, answer) in [
        ("M1.txt", "M2.txt", "equal\nThe two machines are equal: "),
        (
            "M1.txt",
            "M3.txt",
            "unequal\nThe two machines are unequal. ",
        ),
        (
            "M5.txt",
            "M6.txt",
            "unequal\nThe two machines are unequal. ",
        ),
        ("M1.txt", "M5.txt", "refused 20 0\nrefused: question 20: "),
    ] {
        let printed = compare(&text(first), &text(second));
        let told = String::from_utf8_lossy(&printed.stdout);
        assert!(told.starts_with(answer), "{first} {second}: {told}");
        assert!(printed.status.success(), "{first} {second}");
    }
    let folder = PathBuf::from(env!("CARGO_TARGET_TMPDIR"));
    let sheet = folder.join("M2.sheet");
    fs::write(&sheet, checker::program::bytes(&worked::m2())).expect("it can be written");
    assert!(compare(&text("M1.txt"), &sheet)
        .stdout
        .starts_with(b"equal\n"));
    let short = folder.join("short.sheet");
    fs::write(&short, &checker::program::bytes(&worked::m2())[..24]).expect("it can be written");
    for (first, second) in [(&short, &text("M1.txt")), (&text("M1.txt"), &short)] {
        let uncut = compare(first, second);
        assert_eq!(uncut.status.code(), Some(1));
        let told = String::from_utf8_lossy(&uncut.stdout);
        let named = format!("{}: refused 2 1\nrefused: question 2: ", short.display());
        assert!(
            told.starts_with(&named) && uncut.stderr.is_empty(),
            "{told}"
        );
    }
    let faulty = folder.join("faulty.txt");
    fs::write(&faulty, "1 1 1\n1 1 one\n1 0\n").expect("it can be written");
    let refused = compare(&text("M1.txt"), &faulty);
    assert_eq!(refused.status.code(), Some(1));
    assert_eq!(refused.stdout, b"");
    assert_eq!(
        String::from_utf8_lossy(&refused.stderr),
        format!(
            "{}: line 2, column 5: this is not a decimal number\n",
            faulty.display()
        )
    );
}
