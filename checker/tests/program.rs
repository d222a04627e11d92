//! The comparing program, run on whole inputs and on inputs that arrive in small pieces.

mod programs;

use checker::format::COMPARED_BYTES;
use checker::generate::inputs;
use checker::program::expected_output;
use checker::rng::Rng;
use checker::trial;
use std::io::Write;

const SEED: u64 = 0x7072_6f67_7261_6d01;
const CASES: u64 = 3_000;
const SLOW_CASES: u64 = 40;

fn run_in_pieces(input: &[u8], size: usize) -> Vec<u8> {
    programs::run_in_pieces("compare", &[], input, size).stdout
}

#[test]
fn whole_inputs() {
    let seen = trial::program(SEED, CASES, |input| run_in_pieces(input, 65_536));
    writeln!(std::io::stderr(), "seed {SEED:#x}, {CASES} inputs\n{seen}")
        .expect("standard error can be written");
    for line in [
        "equal",
        "unequal",
        "refused 0 0",
        "refused 1 1",
        "refused 1 2",
    ] {
        seen.require(line, 8);
    }
}

#[test]
fn byte_by_byte() {
    for case in 0..SLOW_CASES {
        let input = inputs::any(&mut Rng::for_case(SEED + 1, case));
        let size = if case % 2 == 0 { 1 } else { 7 };
        assert_eq!(
            String::from_utf8_lossy(&run_in_pieces(&input, size)),
            expected_output(&input),
            "case {case}, {} bytes in pieces of {size}",
            input.len()
        );
    }
}

#[test]
fn sizes_at_the_limit() {
    let most = COMPARED_BYTES;
    for length in [0, 1, 2, most - 1, most, most + 1, most + 2, 70_000] {
        let input = vec![1u8; length];
        assert_eq!(
            String::from_utf8_lossy(&run_in_pieces(&input, 4_096)),
            expected_output(&input),
            "{length} bytes"
        );
    }
}
