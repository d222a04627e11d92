//! The cost of the proved code beside tuned Rust, in one process: prints one table in Markdown, with the aim of each row and whether
//! it holds. Every answer is compared before anything is timed. Spaces are dirty; nothing is cleared first.

#[path = "../tests/exports/mod.rs"]
mod exports;
mod shared;

use checker::compare::{self, Answer};
use checker::format::{
    rows_words, rule_header, rule_space, AUTOMATA, BOTH_NODES, LINES, NODES, PAIRS, ROW_BITS,
    SIGNALS,
};
use checker::labelling::{self, Labelling};
use checker::path::{self, Asked};
use checker::rng::Rng;
use checker::truth::Model;
use exports::Place;
use shared::machines::{backwards, line, random, ring, Plan};
use shared::rules::{first_lines, many, waiting};
use shared::table::{best, time, Aim, Figure, Table};
use shared::tuned::{self, Structure};
use std::cmp::Reverse;
use std::hint::black_box;
use std::time::Duration;

const SEED: u64 = 0x0063_6f73_7401;

/// The words that comparison asks for with all signals and nodes.
const SPACE: usize = rule_space(SIGNALS, BOTH_NODES);

/// The nodes of each machine where two are compared that have the same number.
const HALF: usize = BOTH_NODES / 2;

fn main() {
    let mut table = Table::begin();
    label_lines(&mut table);
    wait_on_a_chain(&mut table);
    show_a_path(&mut table);
    compare_machines(&mut table);
    compare_shared_tails(&mut table);
    table.end();
}

// ---- labelling

/// The best times of labelling, ours and tuned, once the rows are the same as the tuned ones and the checker's.
fn label_times(what: &str, machine: &[u16], rules: &[u16]) -> [Duration; 2] {
    let lines = usize::from(rules[rule_header::LINES]);
    let mut rows = vec![!0u64; rows_words(lines)];
    let mut own = rows.clone();
    let answer = exports::label(machine, rules, &mut rows);
    assert!(
        matches!(answer, Labelling::Done { .. }),
        "{what}: {answer:?}"
    );
    assert_eq!(
        answer,
        labelling::label(&Model::read(machine, rules), &mut own),
        "{what}"
    );
    assert_eq!(rows, own, "{what}");
    let tuned = tuned::label(&Structure::read(machine), rules);
    let halves = tuned
        .iter()
        .flat_map(|row| [*row as u64, (row >> ROW_BITS) as u64]);
    assert_eq!(rows, halves.collect::<Vec<u64>>(), "{what}");
    best([
        &mut || {
            black_box(exports::label(black_box(machine), rules, &mut rows));
        },
        &mut || {
            black_box(tuned::label(&Structure::read(black_box(machine)), rules));
        },
    ])
}

fn label_lines(table: &mut Table) {
    let mut rng = Rng::for_case(SEED, 0);
    let rules = many(&mut rng, AUTOMATA, LINES);
    for (nodes, aim) in [
        (8, Some(1.2)),
        (16, None),
        (32, None),
        (64, None),
        (NODES, Some(0.8)),
    ] {
        let heads = random(&mut rng, nodes, 3);
        let machine = Plan::marked(heads, 0).with_signals(&mut rng, 4).sheet();
        let what = format!("label 1,024 lines, {nodes} nodes, 3 edges a node");
        let [ours, tuned] = label_times(&what, &machine, &rules);
        table.ratio(&what, ours, tuned, aim);
    }
    for (name, heads) in [
        ("in a ring", ring(NODES)),
        ("16 edges a node", random(&mut rng, NODES, 16)),
    ] {
        let machine = Plan::marked(heads, 0).with_signals(&mut rng, 4).sheet();
        let what = format!("label 1,024 lines, 128 nodes, {name}");
        let [ours, tuned] = label_times(&what, &machine, &rules);
        table.ratio(&what, ours, tuned, Some(0.8));
    }
}

fn wait_on_a_chain(table: &mut Table) {
    for (name, every) in [
        ("everywhere", 1),
        ("at every 8th node", 8),
        ("at the last node", NODES),
    ] {
        let mut plan = Plan::marked(line(NODES), 0);
        plan.words = (1..=NODES)
            .map(|node| u16::from(node % every == 0))
            .collect();
        let machine = plan.sheet();
        let mut before: Option<Duration> = None;
        for states in [4, 8, 16] {
            let what = format!("waiting chain, signal on {name}, {states} states");
            let [ours, tuned] = label_times(&what, &machine, &waiting(states));
            let figure = before.map(|half| Figure::Times(times(ours, half), "half the states"));
            let aim = figure.map(|_| Aim::AtMost(2.3));
            table.row(&what, ours, Some(tuned), figure, aim);
            before = Some(ours);
        }
    }
}

fn times(one: Duration, other: Duration) -> f64 {
    one.as_secs_f64() / other.as_secs_f64()
}

// ---- a path

/// A path for line 2 of a sheet with many path lines, and of one that has the first two of its lines alone. Both calls check their
/// sheets first; what is left is to be the cost of the two lines.
fn show_a_path(table: &mut Table) {
    let mut rng = Rng::for_case(SEED, 1);
    let plan = Plan::marked(random(&mut rng, NODES, 3), 0);
    let machine = plan.with_signals(&mut rng, 4).sheet();
    let (rules, asked) = loop {
        let rules = many(&mut rng, 1, LINES);
        if let Some(asked) = asked_of_line_2(&machine, &rules) {
            break (rules, asked);
        }
    };
    let two = first_lines(&rules, 2);
    for rules in [&rules, &two] {
        let before = vec![(0, 0); PAIRS];
        let mut list = before.clone();
        let answer = exports::path(&machine, rules, asked, &mut list);
        let model = Model::read(&machine, rules);
        assert_eq!(path::judge(&model, asked, &before, answer, &list), Ok(()));
        assert!(matches!(answer, path::Answer::Shown { .. }), "{answer:?}");
    }
    let [path, checks, path_of_two, checks_of_two] = best([
        &mut || run_path(&machine, &rules, asked),
        &mut || run_checks(&machine, &rules),
        &mut || run_path(&machine, &two, asked),
        &mut || run_checks(&machine, &two),
    ]);
    let [labelling, _] = label_times("the lines above and below", &machine, &rules);
    let beyond = times(
        path.saturating_sub(checks),
        path_of_two.saturating_sub(checks_of_two),
    );
    let figure = Figure::Times(beyond, "the two lines alone, both without the checks");
    table.row(
        "a path for line 2 of 1,024 lines",
        path,
        None,
        Some(figure),
        Some(Aim::AtMost(1.5)),
    );
    for (what, time) in [
        ("beside it: the sheet checks alone", checks),
        ("beside it: a path for line 2 of two lines", path_of_two),
        (
            "beside it: the sheet checks with two lines alone",
            checks_of_two,
        ),
        ("beside it: labelling all lines", labelling),
    ] {
        table.row(what, time, None, None, None);
    }
}

/// Line 2, at a node where it is true, if there is one.
fn asked_of_line_2(machine: &[u16], rules: &[u16]) -> Option<Asked> {
    let rows = tuned::label(&Structure::read(machine), rules);
    let node = u64::from(rows[1].trailing_zeros());
    (rows[1] != 0).then_some(Asked {
        line: 2,
        node: node + 1,
    })
}

fn run_path(machine: &[u16], rules: &[u16], asked: Asked) {
    let mut places = [Place { node: 0, state: 0 }; PAIRS];
    let machine = black_box(machine);
    black_box(exports::path_places(machine, rules, asked, &mut places));
}

fn run_checks(machine: &[u16], rules: &[u16]) {
    black_box(exports::check_machine(black_box(machine)));
    black_box(exports::check_rules(black_box(rules)));
}

// ---- comparison

/// Two machine sheets to compare.
type Pair = [Vec<u16>; 2];

fn run_proved([first, second]: &Pair, space: &mut [u16]) -> Answer {
    exports::compare(black_box(first), second, space)
}

fn run_tuned([first, second]: &Pair) -> bool {
    tuned::equal(&Structure::read(black_box(first)), &Structure::read(second))
}

/// The best times of a comparison, ours and tuned, a mean over the pairs, once both give the right answer and the checker's judge finds
/// nothing wrong with what is written.
fn compare_times(what: &str, pairs: &[Pair], right: Answer) -> [Duration; 2] {
    let mut space = vec![!0u16; SPACE];
    for pair in pairs {
        let [first, second] = pair;
        let before = space.clone();
        let answer = run_proved(pair, &mut space);
        assert_eq!(answer, right, "{what}");
        let judged = compare::judge(first, second, &before, answer, &space);
        assert_eq!(judged, Ok(()), "{what}");
        assert_eq!(run_tuned(pair), right == Answer::Equal, "{what}");
    }
    let all = best([
        &mut || {
            for pair in pairs {
                black_box(run_proved(pair, &mut space));
            }
        },
        &mut || {
            for pair in pairs {
                black_box(run_tuned(pair));
            }
        },
    ]);
    all.map(|time| time / pairs.len() as u32)
}

/// So many pairs of random machines are compared in a row.
const DRAWN: usize = 8;

fn compare_machines(table: &mut Table) {
    let mut rng = Rng::for_case(SEED, 2);
    let mut row = |what: &str, pairs: &[Pair], right: Answer, most: f64| {
        let [ours, tuned] = compare_times(what, pairs, right);
        table.ratio(&format!("compare {what}"), ours, tuned, Some(most));
    };
    let ring_of = |mark: usize| Plan::marked(ring(HALF), mark).sheet();
    let line_of = |nodes: usize| Plan::marked(line(nodes), nodes - 1).sheet();
    let same = |sheet: Vec<u16>| [[sheet.clone(), sheet]];
    let last = HALF - 1;
    row("rings of 64", &same(ring_of(last)), Answer::Equal, 1.5);
    let apart = [[ring_of(last), ring_of(last - 1)]];
    row(
        "rings of 64, marks one node apart",
        &apart,
        Answer::Unequal,
        1.5,
    );
    row("lines of 64", &same(line_of(HALF)), Answer::Equal, 1.5);
    for edges in [32, 2] {
        for signals in [2, 4] {
            let what = format!("64 + 64 nodes, {edges} edges a node, {signals} signals, unequal");
            let pairs = drawn(|| random_pair(&mut rng, edges, signals));
            row(&what, &pairs, Answer::Unequal, 1.5);
        }
    }
    let most = BOTH_NODES - 1;
    let ends = [line_of(most), line_of(1)];
    row(
        "127 + 1 nodes, a line and its end",
        &[ends],
        Answer::Unequal,
        1.5,
    );
    let alike = [most, 1].map(|nodes| {
        let mut plan = Plan::marked(random(&mut rng, nodes, nodes.min(2)), 0);
        plan.words.fill(1);
        plan.sheet()
    });
    let [many, one] = alike.clone();
    row("127 + 1 nodes, all alike", &[alike], Answer::Equal, 1.5);
    row(
        "1 + 127 nodes, all alike",
        &[[one, many]],
        Answer::Equal,
        1.5,
    );
    for edges in [2, 32] {
        for signals in [2, 4] {
            let what =
                format!("64 nodes in another order, {edges} edges a node, {signals} signals");
            let pairs = drawn(|| reordered_pair(&mut rng, edges, signals));
            row(&what, &pairs, Answer::Equal, 2.0);
        }
    }
}

fn drawn(draw: impl FnMut() -> Pair) -> Vec<Pair> {
    std::iter::repeat_with(draw).take(DRAWN).collect()
}

fn random_plan(rng: &mut Rng, edges: usize, signals: u16) -> Plan {
    Plan::marked(random(rng, HALF, edges), 0).with_signals(rng, signals)
}

/// Two random machines that are not equal.
fn random_pair(rng: &mut Rng, edges: usize, signals: u16) -> Pair {
    loop {
        let pair = [(); 2].map(|()| random_plan(rng, edges, signals).sheet());
        if !run_tuned(&pair) {
            return pair;
        }
    }
}

/// A random machine, and the same with its nodes in another order.
fn reordered_pair(rng: &mut Rng, edges: usize, signals: u16) -> Pair {
    let plan = random_plan(rng, edges, signals);
    [plan.sheet(), plan.reordered(rng).sheet()]
}

// ---- chains with shared tails

/// What a comparison of machines whose chains share tails may take.
const SHARED_TAIL: Duration = Duration::from_millis(4);

fn compare_shared_tails(table: &mut Table) {
    let mut rng = Rng::for_case(SEED, 3);
    let mut row = |what: &str, pair: Pair| {
        let [ours, tuned] = compare_times(what, &[pair], Answer::Equal);
        table.row(
            &format!("compare 64 + 64 nodes, {what}"),
            ours,
            Some(tuned),
            Some(Figure::Time(ours)),
            Some(Aim::Within(SHARED_TAIL)),
        );
    };
    let last = HALF - 1;
    let same = |plan: Plan| [plan.sheet(), plan.sheet()];
    let heads = Plan::marked(random(&mut rng, HALF, 4), 0).with_signals(&mut rng, 3);
    let plan = heads.with_tails(1, |_, place| place % 8);
    row("4 random heads a node, one tail to 8 nodes", same(plan));
    let plan = Plan::marked(ring(HALF), last).with_tails(1, |_, _| last);
    row("heads in a ring, one tail to the marked node", same(plan));
    let plan = Plan::marked(line(HALF), last).with_tails(1, |_, _| 0);
    row("heads in a line, one tail to node 1", same(plan));
    let (number, (what, pair)) = worst_of(shared_tails(&mut rng));
    row(
        &format!("worst found of {number} with shared tails: {what}"),
        pair,
    );
}

/// How many pairs there are, and that which takes the longest: the ten that seem worst are timed again.
fn worst_of(pairs: Vec<(String, Pair)>) -> (usize, (String, Pair)) {
    let number = pairs.len();
    let mut space = vec![!0u16; SPACE];
    let mut least = |pair: &Pair, runs: usize| {
        let mut run = || {
            black_box(run_proved(pair, &mut space));
        };
        let times = (0..runs).map(|_| time(&mut run));
        times.min().expect("there is a run")
    };
    let mut timed: Vec<(Duration, (String, Pair))> = pairs
        .into_iter()
        .map(|named| (least(&named.1, 3), named))
        .collect();
    timed.sort_by_key(|(took, _)| Reverse(*took));
    timed.truncate(10);
    let worst = timed
        .into_iter()
        .max_by_key(|(_, named)| least(&named.1, 20));
    (number, worst.expect("there is a pair").1)
}

/// Machines whose chains share tails, beside themselves and beside the same with their nodes in another order: heads of several shapes
/// in both orders, one signal or three, one to four tails.
fn shared_tails(rng: &mut Rng) -> Vec<(String, Pair)> {
    let heads = [
        ("a ring", ring(HALF)),
        ("a ring downwards", backwards(ring(HALF))),
        ("a line", line(HALF)),
        ("a line downwards", backwards(line(HALF))),
        ("1 random edge", random(rng, HALF, 1)),
        ("2 random edges", random(rng, HALF, 2)),
        ("4 random edges", random(rng, HALF, 4)),
    ];
    let mut found = Vec::new();
    for (shape, heads) in heads {
        let marked = |node| Plan::marked(heads.clone(), node);
        let plans = [
            ("node 1 marked", marked(0)),
            ("node 64 marked", marked(HALF - 1)),
            ("3 signals", marked(0).with_signals(rng, 3)),
        ];
        for (marks, plan) in &plans {
            for tails in [1, 2, 4] {
                for (targets, tailed) in tailed(plan, tails) {
                    let what = format!("heads {shape}, {marks}, tails {tails}, {targets}");
                    let [sheet, moved] = [tailed.sheet(), tailed.reordered(rng).sheet()];
                    let moved = (format!("{what}, reordered"), [sheet.clone(), moved]);
                    found.extend([(what, [sheet.clone(), sheet]), moved]);
                }
            }
        }
    }
    found
}

/// A machine with so many shared tails, which lead each to one node, to several, or to another only at the end.
fn tailed(plan: &Plan, tails: usize) -> [(&'static str, Plan); 5] {
    let last = HALF - 1;
    let length = plan.room() / tails;
    let with = |target: &dyn Fn(usize, usize) -> usize| plan.clone().with_tails(tails, target);
    [
        ("each to a low node", with(&|tail, _| tail)),
        ("each to a high node", with(&|tail, _| last - tail)),
        (
            "each to 8 nodes in turn",
            with(&|tail, place| 8 * tail + place % 8),
        ),
        (
            "each to 16 nodes, one after the other",
            with(&|tail, place| 16 * place / length * 4 + tail),
        ),
        (
            "to node 1, the last record of each to a high node",
            with(&|tail, place| match place + 1 == length {
                true => last - tail,
                false => 0,
            }),
        ),
    ]
}
