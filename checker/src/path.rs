//! Paths: the questions 18 and 19, and a judge of shown paths. Which path is shown is free, so an
//! answer is not compared with another path but held to all that the document says of it. A plain
//! search gives a path to try the judge on.

use crate::refusal::Refusal;
use crate::rules::{Automaton, Line};
use crate::truth::{valuations, Model, Product};
use std::collections::VecDeque;

/// A pair of a node and a state's record number, as a list holds it.
pub type Pair = (u16, u16);

/// What is asked: a line, 0 for the last, and a node. Both count from 1.
#[derive(Clone, Copy, Debug, PartialEq, Eq)]
pub struct Asked {
    pub line: u64,
    pub node: u64,
}

#[derive(Clone, Copy, Debug, PartialEq, Eq)]
pub enum Answer {
    Refused(Refusal),
    NoPath,
    /// The number of pairs, and the place, from 1, to which the last pair leads.
    Shown {
        length: u64,
        back: u64,
    },
}

/// What the document settles about an answer.
#[derive(Clone, Copy, Debug, PartialEq, Eq)]
pub enum Settled {
    Refused(Refusal),
    NoPath,
    SomePath,
}

/// Asks the questions 1 to 16, 18 and 19, and whether there is a path.
pub fn settled(model: &Result<Model, Refusal>, asked: Asked, room: usize) -> Settled {
    match model {
        Err(refusal) => Settled::Refused(*refusal),
        Ok(model) => match Sought::new(model, asked, room) {
            Err(refusal) => Settled::Refused(refusal),
            Ok(sought) if sought.exists() => Settled::SomePath,
            Ok(_) => Settled::NoPath,
        },
    }
}

/// Says what is wrong with an answer, given the list before and after the call.
pub fn judge(
    model: &Result<Model, Refusal>,
    asked: Asked,
    before: &[Pair],
    answer: Answer,
    after: &[Pair],
) -> Result<(), String> {
    let settled = settled(model, asked, before.len());
    let length = match (settled, answer) {
        (Settled::Refused(expected), Answer::Refused(refusal)) if expected == refusal => 0,
        (Settled::NoPath, Answer::NoPath) => 0,
        (Settled::SomePath, Answer::Shown { length, back }) => {
            let model = model.as_ref().map_err(|_| "refused sheets")?;
            let sought = Sought::new(model, asked, before.len()).map_err(|_| "refused")?;
            sought.judge_list(after, length, back)?
        }
        _ => return Err(format!("{answer:?}, where {settled:?} is right")),
    };
    match before.len() == after.len() && before[length..] == after[length..] {
        true => Ok(()),
        false => Err(format!("a record past the first {length} was changed")),
    }
}

/// A path that is asked for, on sheets and with a list that are not refused.
struct Sought<'a> {
    model: &'a Model,
    line: usize,
    node: usize,
    accepting: bool,
    automaton: &'a Automaton,
    valuations: Vec<usize>,
}

impl<'a> Sought<'a> {
    fn new(model: &'a Model, asked: Asked, room: usize) -> Result<Sought<'a>, Refusal> {
        let lines = model.rules.lines.len();
        let nodes = model.machine.nodes();
        let line = if asked.line == 0 {
            Some(lines - 1)
        } else {
            place(asked.line, lines)
        };
        let (Some(line), Some(node)) = (line, place(asked.node, nodes)) else {
            return Err(Refusal::of(18));
        };
        let Line::SomePath {
            accepting,
            automaton,
            arguments,
        } = &model.rules.lines[line]
        else {
            return Err(Refusal::of(18));
        };
        let automaton = &model.rules.automata[*automaton];
        if room < nodes * automaton.numbers.len() {
            return Err(Refusal::of(19));
        }
        Ok(Sought {
            model,
            line,
            node,
            accepting: *accepting,
            automaton,
            valuations: valuations(&model.machine, arguments, &model.truth),
        })
    }

    fn exists(&self) -> bool {
        self.model.truth[self.line][self.node]
    }

    /// Says what is wrong with a list; gives its length if nothing is.
    fn judge_list(&self, list: &[Pair], length: u64, back: u64) -> Result<usize, String> {
        let length = place(length, list.len()).ok_or("the length is not in the list")? + 1;
        let back = place(back, length).ok_or("the back index is not in the path")?;
        let mut path = Vec::new();
        for (index, &pair) in list[..length].iter().enumerate() {
            let known = self.known(pair);
            path.push(known.ok_or(format!("no pair at {}: {pair:?}", index + 1))?);
        }
        if path[0] != (self.node, 0) {
            return Err(format!("the path begins at {:?}", list[0]));
        }
        self.judge_repeats(&path)?;
        self.judge_steps(&path, back)?;
        self.judge_kinds(&path[back..])?;
        Ok(length)
    }

    /// The node and the place of the state, from 0, if both exist.
    fn known(&self, (node, state): Pair) -> Option<(usize, usize)> {
        let node = place(u64::from(node), self.model.machine.nodes())?;
        let mut numbers = self.automaton.numbers.iter();
        let state = numbers.position(|&number| number == usize::from(state))?;
        Some((node, state))
    }

    fn judge_repeats(&self, path: &[(usize, usize)]) -> Result<(), String> {
        let mut sorted = path.to_vec();
        sorted.sort_unstable();
        match sorted.windows(2).find(|two| two[0] == two[1]) {
            Some(two) => Err(format!("the pair {:?} stands twice", two[0])),
            None => Ok(()),
        }
    }

    /// Each pair goes to the next, and the last to the back index.
    fn judge_steps(&self, path: &[(usize, usize)], back: usize) -> Result<(), String> {
        let followers = path[1..].iter().chain(&path[back..=back]);
        for (from, to) in path.iter().zip(followers) {
            if !self.model.machine.successors[from.0].contains(&to.0) {
                return Err(format!("no edge of R from {from:?} to {to:?}"));
            }
            if self.automaton.step[from.1][self.valuations[from.0]] != to.1 {
                return Err(format!(
                    "another state follows {from:?} than that of {to:?}"
                ));
            }
        }
        Ok(())
    }

    fn judge_kinds(&self, cycle: &[(usize, usize)]) -> Result<(), String> {
        let wrong = |pair: &&(usize, usize)| self.automaton.accepting[pair.1] != self.accepting;
        match cycle.iter().find(wrong) {
            Some(pair) => Err(format!("a state of the wrong kind recurs: {pair:?}")),
            None => Ok(()),
        }
    }
}

/// The place, from 0, of a number that counts from 1 to `last`.
fn place(number: u64, last: usize) -> Option<usize> {
    let index = number.checked_sub(1)?;
    let index = usize::try_from(index).ok()?;
    (index < last).then_some(index)
}

/// A path by plain search, if there is one: to the nearest good pair that some walk leads back to
/// itself, and round from there. It gives the list and the back index.
pub fn find(model: &Model, asked: Asked, room: usize) -> Option<(Vec<Pair>, u64)> {
    let sought = Sought::new(model, asked, room).ok()?;
    let product = Product::new(&model.machine, sought.automaton, &sought.valuations);
    let is_good = |v: usize| sought.automaton.accepting[product.pair(v).1] == sought.accepting;
    let recurs = |v: usize| is_good(v) && walk_to(&product, v, |w| w == v).is_some();
    let start = product.vertex(sought.node, 0);
    let stem = match recurs(start) {
        true => vec![start],
        false => walk_to(&product, start, recurs)?,
    };
    let head = *stem.last()?;
    let cycle = walk_to(&product, head, |v| v == head)?;
    let whole = stem.iter().chain(&cycle[1..cycle.len() - 1]);
    let pair = |&vertex: &usize| {
        let (node, state) = product.pair(vertex);
        (node as u16 + 1, sought.automaton.numbers[state] as u16)
    };
    Some((whole.map(pair).collect(), stem.len() as u64))
}

/// A shortest walk of one step or more to a pair that will do, both ends included.
fn walk_to(product: &Product, from: usize, will_do: impl Fn(usize) -> bool) -> Option<Vec<usize>> {
    let mut came_from = vec![None; product.len()];
    let mut queue = VecDeque::from([from]);
    while let Some(vertex) = queue.pop_front() {
        for next in product.successors(vertex) {
            if came_from[next].is_none() {
                came_from[next] = Some(vertex);
                if will_do(next) {
                    return Some(trace(&came_from, from, next));
                }
                queue.push_back(next);
            }
        }
    }
    None
}

/// The walk to a pair, by where each pair was come from; it ends as soon as it is back at the
/// first one.
fn trace(came_from: &[Option<usize>], from: usize, to: usize) -> Vec<usize> {
    let mut walk = vec![to];
    let mut present = to;
    while let Some(before) = came_from[present] {
        present = before;
        walk.push(present);
        if present == from {
            break;
        }
    }
    walk.reverse();
    walk
}

#[cfg(test)]
mod tests {
    use super::*;
    use crate::coverage::Coverage;
    use crate::generate::pairs;
    use crate::rng::Rng;
    use crate::worked;

    const DIRT: Pair = (60_000, 60_001);

    fn asked(line: u64, node: u64) -> Asked {
        Asked { line, node }
    }

    #[test]
    fn even_on_m3_goes_round() {
        let model = Model::read(&worked::m3(), &worked::even());
        let before = [DIRT; 6];
        let mut after = before;
        after[..2].copy_from_slice(&[(1, 1), (2, 2)]);
        let shown = Answer::Shown { length: 2, back: 1 };
        assert_eq!(judge(&model, asked(0, 1), &before, shown, &after), Ok(()));
        assert_eq!(judge(&model, asked(2, 1), &before, shown, &after), Ok(()));
        let none = judge(&model, asked(0, 2), &before, Answer::NoPath, &before);
        assert_eq!(none, Ok(()));
    }

    #[test]
    fn the_questions_of_a_path() {
        let model = Model::read(&worked::m3(), &worked::even());
        let refused = |question| Settled::Refused(Refusal::of(question));
        assert_eq!(settled(&model, asked(1, 1), 6), refused(18));
        assert_eq!(settled(&model, asked(3, 1), 6), refused(18));
        assert_eq!(settled(&model, asked(2, 0), 6), refused(18));
        assert_eq!(settled(&model, asked(2, 3), 6), refused(18));
        assert_eq!(settled(&model, asked(2, 3), 0), refused(18));
        assert_eq!(settled(&model, asked(2, 2), 5), refused(19));
        assert_eq!(settled(&model, asked(u64::MAX, u64::MAX), 6), refused(18));
        assert_eq!(settled(&model, asked(2, 2), 6), Settled::NoPath);
        assert_eq!(settled(&model, asked(0, 1), 6), Settled::SomePath);
        let refused = Model::read(&[], &worked::even());
        let expected = Settled::Refused(Refusal::of_machine(1, 1));
        assert_eq!(settled(&refused, asked(0, 1), 6), expected);
    }

    // Even on M3 from node 1, with one thing wrong at a time.
    #[test]
    fn what_is_wrong_is_named() {
        let model = Model::read(&worked::m3(), &worked::even());
        let right: [Pair; 6] = [(1, 1), (2, 2), DIRT, DIRT, DIRT, DIRT];
        let before = [DIRT; 6];
        let say = |list: &[Pair], length, back| {
            let shown = Answer::Shown { length, back };
            judge(&model, asked(0, 1), &before, shown, list).expect_err("a wrong list")
        };
        let with = |index: usize, pair| {
            let mut list = right;
            list[index] = pair;
            list
        };
        assert!(say(&right, 0, 1).contains("length"));
        assert!(say(&right, 7, 1).contains("length"));
        assert!(say(&right, 2, 0).contains("back index"));
        assert!(say(&right, 2, 3).contains("back index"));
        assert!(say(&right, 3, 1).contains("no pair at 3"));
        assert!(say(&right, 2, 2).contains("no edge of R"));
        assert!(say(&with(0, (2, 1)), 2, 1).contains("begins"));
        assert!(say(&with(0, (1, 2)), 2, 1).contains("begins"));
        assert!(say(&with(1, (1, 2)), 2, 1).contains("no edge of R"));
        assert!(say(&with(1, (2, 3)), 2, 1).contains("another state"));
        assert!(say(&with(1, (2, 4)), 2, 1).contains("no pair at 2"));
        assert!(say(&with(2, (1, 1)), 3, 2).contains("stands twice"));
        assert!(say(&with(2, (1, 1)), 2, 1).contains("past the first 2"));
        let denied = judge(&model, asked(0, 1), &before, Answer::NoPath, &before);
        assert!(denied.is_err());
        let shown = Answer::Shown { length: 2, back: 1 };
        assert!(judge(&model, asked(0, 2), &before, shown, &right).is_err());
    }

    // A path from node 2 of M3 would have to stay in Even's third state, which accepts nothing.
    #[test]
    fn a_state_of_the_wrong_kind_must_not_recur() {
        let model = Model::read(&worked::m3(), &worked::even());
        let model = model.expect("accepted sheets");
        let sought = Sought::new(&model, asked(2, 2), 6).expect("room enough");
        let list = [(2, 1), (1, 3), (2, 3)];
        let said = sought.judge_list(&list, 3, 2).expect_err("a wrong list");
        assert!(said.contains("wrong kind"), "{said}");
    }

    #[test]
    fn found_paths_are_right_and_damaged_ones_are_not() {
        let mut coverage = Coverage::new();
        for case in 0..3_000 {
            let mut rng = Rng::for_case(33, case);
            let (machine, rules) = pairs::tiny(&mut rng);
            let model = Model::read(&machine, &rules);
            let (asked, before) = pairs::path_question(&mut rng, &model);
            match settled(&model, asked, before.len()) {
                Settled::Refused(refusal) => {
                    coverage.note(&format!("refused by {}", refusal.question));
                }
                Settled::NoPath => coverage.note("no path"),
                Settled::SomePath => {
                    coverage.note("a path");
                    try_found(&mut rng, &model, asked, &before, &mut coverage);
                }
            }
        }
        for event in ["refused by 18", "refused by 19", "no path", "a path"] {
            coverage.require(event, 200);
        }
        coverage.require("damaged and refused", 400);
    }

    fn try_found(
        rng: &mut Rng,
        model: &Result<Model, Refusal>,
        asked: Asked,
        before: &[Pair],
        coverage: &mut Coverage,
    ) {
        let sheets = model.as_ref().expect("accepted sheets");
        let (path, back) = find(sheets, asked, before.len()).expect("a path");
        let shown = Answer::Shown {
            length: path.len() as u64,
            back,
        };
        let mut after = before.to_vec();
        after[..path.len()].copy_from_slice(&path);
        assert_eq!(judge(model, asked, before, shown, &after), Ok(()));
        let index = rng.below(after.len());
        let changed = (rng.between(1, 4) as u16, rng.between(1, 4) as u16);
        if after[index] != changed {
            after[index] = changed;
            let said = judge(model, asked, before, shown, &after);
            coverage.note(match said {
                Err(_) => "damaged and refused",
                Ok(()) => "damaged into another right path",
            });
        }
    }
}
