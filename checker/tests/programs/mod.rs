//! Runs the proved programs, which `build.sh` leaves in target/bin.

use std::io::Write;
use std::path::PathBuf;
use std::process::{Child, Command, Output, Stdio};
use std::thread;
use std::time::{Duration, Instant};

fn start(name: &str, arguments: &[&str]) -> Child {
    let programs = PathBuf::from(env!("CARGO_MANIFEST_DIR")).join("../target/bin");
    Command::new(programs.join(name))
        .args(arguments)
        .stdin(Stdio::piped())
        .stdout(Stdio::piped())
        .stderr(Stdio::piped())
        .spawn()
        .expect("the program is there once `build.sh` has run")
}

/// What a program prints for its arguments and an input that is handed over in pieces of a size. A program stops reading one byte
/// past the longest input that it takes, so that a later write may find the pipe closed.
pub fn run_in_pieces(name: &str, arguments: &[&str], input: &[u8], size: usize) -> Output {
    let mut child = start(name, arguments);
    let mut pipe = child.stdin.take().expect("the input is a pipe");
    let pieces: Vec<Vec<u8>> = input.chunks(size).map(<[u8]>::to_vec).collect();
    let writer = thread::spawn(move || {
        for piece in pieces {
            if pipe.write_all(&piece).and_then(|()| pipe.flush()).is_err() {
                break;
            }
        }
    });
    let output = child.wait_with_output().expect("the program ends");
    writer.join().expect("the writer ends");
    output
}

/// The same with the input in one piece.
#[allow(dead_code)] // each test is a crate of its own, and not every one uses both
pub fn run(name: &str, arguments: &[&str], input: &[u8]) -> Output {
    run_in_pieces(name, arguments, input, input.len().max(1))
}

/// What a program prints for an input behind which the pipe stays open, if it ends within the time; a program that does not is
/// stopped.
#[allow(dead_code)]
pub fn run_kept_open(
    name: &str,
    arguments: &[&str],
    input: &[u8],
    most: Duration,
) -> Option<Output> {
    let mut child = start(name, arguments);
    let mut pipe = child.stdin.take().expect("the input is a pipe");
    let input = input.to_vec();
    // The pipe is handed back, and so is open until the writer is joined. A program that ends before it has read everything closes it.
    let writer = thread::spawn(move || {
        let _ = pipe.write_all(&input);
        pipe
    });
    let started = Instant::now();
    let mut ended = false;
    while !ended && started.elapsed() < most {
        thread::sleep(Duration::from_millis(5));
        ended = child
            .try_wait()
            .expect("the program can be asked")
            .is_some();
    }
    if !ended {
        child.kill().expect("the program can be stopped");
    }
    let output = child.wait_with_output().expect("the program ends");
    drop(writer.join().expect("the writer ends"));
    ended.then_some(output)
}
