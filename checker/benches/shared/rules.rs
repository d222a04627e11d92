//! Rule sheets for the benchmarks, the same in every run.

use checker::format::operation::{SIGNAL, SOME_PATH, SOME_PATH_NOT};
use checker::format::{line, rule_header, AUTOMATON_STATES, VALUATIONS, VARIABLES};
use checker::rng::Rng;

/// Signal 1, then path lines of so many automata with 16 states and 4 variables. The states of each automaton form four layers of four,
/// and an edge leads into its own layer or a later one; a layer accepts or does not, so that condition 1 holds. Four edges a state:
/// with 16 automata as many as the sheet has room for.
pub fn many(rng: &mut Rng, automata: usize, lines: usize) -> Vec<u16> {
    let (states, edges) = (automata * AUTOMATON_STATES, automata * AUTOMATON_STATES * 4);
    let mut words = [automata, states, edges, lines]
        .map(|count| count as u16)
        .to_vec();
    for automaton in 0..automata {
        words.extend([VARIABLES as u16, (automaton * AUTOMATON_STATES + 1) as u16]);
    }
    for automaton in 0..automata {
        let layers: Vec<u16> = (0..4)
            .map(|layer| (layer + automaton as u16 + rng.below(2) as u16) % 2)
            .collect();
        for state in 0..AUTOMATON_STATES {
            let number = automaton * AUTOMATON_STATES + state;
            let next = if state + 1 < AUTOMATON_STATES {
                number + 2
            } else {
                0
            };
            words.extend([layers[state / 4], (number * 4 + 1) as u16, next as u16]);
        }
    }
    for automaton in 0..automata {
        for state in 0..AUTOMATON_STATES {
            let mut masks = [0u16; 4];
            for valuation in 0..VALUATIONS {
                masks[rng.below(4)] |= 1 << valuation;
            }
            let mut later: Vec<usize> = (state / 4 * 4..AUTOMATON_STATES).collect();
            for (place, mask) in masks.into_iter().enumerate() {
                let target = later.swap_remove(rng.below(later.len().min(5)));
                let number = (automaton * AUTOMATON_STATES + state) * 4 + place + 1;
                let next = if place < 3 { number + 1 } else { 0 };
                words.extend([
                    (automaton * AUTOMATON_STATES + target + 1) as u16,
                    mask,
                    next as u16,
                ]);
            }
        }
    }
    words.extend([SIGNAL, 1, 0, 0, 0, 0]);
    for line in 2..=lines as u16 {
        words.push(*rng.pick(&[SOME_PATH, SOME_PATH_NOT]));
        words.push(1 + rng.below(automata) as u16);
        words.extend((0..VARIABLES).map(|_| 1 + rng.below(usize::from(line) - 1) as u16));
    }
    words
}

/// The same sheet with its first lines alone.
pub fn first_lines(rules: &[u16], lines: u16) -> Vec<u16> {
    let dropped = line::WORDS * usize::from(rules[rule_header::LINES] - lines);
    let mut words = rules[..rules.len() - dropped].to_vec();
    words[rule_header::LINES] = lines;
    words
}

/// Signal 1, and a path line over it whose automaton has states that wait: each stays where the signal is off and goes to the next
/// state where it is on. The last state accepts and is never left.
pub fn waiting(states: u16) -> Vec<u16> {
    let mut words = vec![1, states, 2 * states - 1, 2, 1, 1];
    for state in 1..=states {
        let last = state == states;
        let next = if last { 0 } else { state + 1 };
        words.extend([u16::from(last), 2 * state - 1, next]);
    }
    for state in 1..states {
        words.extend([state, 1, 2 * state, state + 1, 2, 0]);
    }
    words.extend([states, 3, 0]);
    words.extend([SIGNAL, 1, 0, 0, 0, 0]);
    words.extend([SOME_PATH, 1, 1, 0, 0, 0]);
    words
}
