//! `compare.sh` on pairs of files, damaged ones above all: what it tells is what the checker decides on the two files by themselves.
//! An "equal" that is not so must not happen.

use checker::coverage::Coverage;
use checker::files::{judge, told, Checked, File, Told};
use checker::generate::files::{self, Content, Pair};
use checker::rng::Rng;
use checker::worked;
use std::path::{Path, PathBuf};
use std::process::Command;
use std::sync::atomic::{AtomicUsize, Ordering};
use std::sync::Mutex;
use std::{fs, thread};

const SEED: u64 = 0x6669_6c65_7301;
const RANDOM: u64 = 1_400;

/// All pairs: the systematic ones, and random ones.
fn pairs() -> Vec<Pair> {
    let [m1, m2, m5, m6] = [worked::m1(), worked::m2(), worked::m5(), worked::m6()];
    let mut pairs = Vec::new();
    for sheets in [[&m1[..], &m2[..]], [&m5[..], &m6[..]]] {
        for text in [false, true] {
            pairs.extend(files::cut_at_every_byte(sheets, text));
        }
        pairs.extend(files::with_trailing_bytes(sheets));
    }
    pairs.extend(files::empty_and_long(&m1));
    pairs.extend((0..RANDOM).map(|case| files::any(&mut Rng::for_case(SEED, case))));
    pairs
}

/// The content under a name in a folder, whose name and theirs have blanks.
fn file(folder: &Path, name: &str, content: &Content) -> File {
    let ending = if content.text { "txt" } else { "sheet" };
    let path = folder.join(format!("{name}.{ending}"));
    fs::write(&path, &content.bytes).expect("the file can be written");
    File {
        name: path.display().to_string(),
        content: content.bytes.clone(),
    }
}

/// Whether the answer is settled: where one file is refused and the other is a text with a fault, either may be told first.
fn is_settled(first: &File, second: &File) -> bool {
    !matches!(
        (first.checked(), second.checked()),
        (Checked::Refused(_), Checked::Faulty(_)) | (Checked::Faulty(_), Checked::Refused(_))
    )
}

/// Runs the script on a pair and gives what is told, or nothing where that is not settled.
fn run(folder: &Path, number: usize, pair: &Pair) -> Option<Told> {
    let first = file(folder, "the first", &pair[0]);
    let second = file(folder, "the second", &pair[1]);
    if !is_settled(&first, &second) {
        return None;
    }
    let expected = told(&first, &second);
    let output = Command::new("bash")
        .arg(PathBuf::from(env!("CARGO_MANIFEST_DIR")).join("../compare.sh"))
        .args([&first.name, &second.name])
        .output()
        .expect("bash runs");
    let [out, errors] =
        [output.stdout, output.stderr].map(|bytes| String::from_utf8_lossy(&bytes).into_owned());
    if let Err(said) = judge(&expected, &out, &errors, output.status.code()) {
        panic!("pair {number} (seed {SEED:#x}): {said}\n{pair:?}");
    }
    Some(expected)
}

/// The kind of what is told, without the file's name.
fn kind(told: &Told) -> &str {
    match told.errors.is_empty() {
        true => told.line.rsplit(": ").next().unwrap_or(""),
        false => "a fault in a text",
    }
}

#[test]
fn pairs_of_files() {
    let pairs = pairs();
    let next = AtomicUsize::new(0);
    let seen = Mutex::new(Coverage::new());
    let workers = thread::available_parallelism().map_or(1, usize::from);
    thread::scope(|scope| {
        for worker in 0..workers {
            let (pairs, next, seen) = (&pairs, &next, &seen);
            scope.spawn(move || {
                let folder =
                    PathBuf::from(env!("CARGO_TARGET_TMPDIR")).join(format!("pair {worker}"));
                fs::create_dir_all(&folder).expect("the folder can be made");
                loop {
                    let number = next.fetch_add(1, Ordering::Relaxed);
                    let Some(pair) = pairs.get(number) else {
                        return;
                    };
                    if let Some(told) = run(&folder, number, pair) {
                        let mut seen = seen.lock().expect("no other worker failed");
                        seen.note("runs");
                        seen.note(kind(&told));
                    }
                }
            });
        }
    });
    let seen = seen.into_inner().expect("no worker failed");
    eprintln!("seed {SEED:#x}, {} pairs\n{seen}", pairs.len());
    seen.require("runs", 1_900);
    for (told, least) in [
        ("equal", 100),
        ("unequal", 100),
        ("refused 0 0", 200),
        ("refused 1 1", 50),
        ("refused 2 1", 200),
        ("refused 20 0", 5),
        ("refused 21 0", 10),
        ("a fault in a text", 20),
    ] {
        seen.require(told, least);
    }
}
