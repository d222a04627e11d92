//! Times, and the table of them in Markdown.

use std::time::{Duration, Instant};
use std::{fmt, fs};

const ROUNDS: u32 = 40;

/// A job is run so often in a round that the round takes about as long as this.
const ROUND: Duration = Duration::from_millis(3);

/// The best time of each job. The jobs take turns, so that a busy machine slows all of them.
pub fn best<const JOBS: usize>(mut jobs: [&mut dyn FnMut(); JOBS]) -> [Duration; JOBS] {
    let runs = jobs.each_mut().map(|job| runs_a_round(job));
    let mut found = [Duration::MAX; JOBS];
    for _ in 0..ROUNDS {
        for (job, (&runs, found)) in jobs.iter_mut().zip(runs.iter().zip(&mut found)) {
            let took = time(&mut || (0..runs).for_each(|_| job()));
            *found = took.div_f64(runs.into()).min(*found);
        }
    }
    found
}

/// How often a job is run in a round, by the shortest of a few runs.
fn runs_a_round(job: &mut dyn FnMut()) -> u32 {
    let run = |_| {
        let start = Instant::now();
        job();
        start.elapsed().as_nanos()
    };
    let shortest = (0..10).map(run).min().expect("there is a run");
    (ROUND.as_nanos() / shortest.max(1)).clamp(1, 10_000) as u32
}

/// The time of a job, less the time in which it waited for a processor.
pub fn time(job: &mut dyn FnMut()) -> Duration {
    let start = Instant::now();
    let before = waited();
    job();
    let waiting = waited() - before;
    start.elapsed().saturating_sub(waiting)
}

/// How long this thread has waited for a processor so far; 0 where the system does not tell.
fn waited() -> Duration {
    let told = fs::read_to_string("/proc/thread-self/schedstat").unwrap_or_default();
    let nanos = told.split_whitespace().nth(1).map(str::parse);
    Duration::from_nanos(nanos.and_then(Result::ok).unwrap_or(0))
}

/// What is measured in a row.
#[derive(Clone, Copy)]
pub enum Figure {
    /// The time of the proved code by that of the tuned one.
    Ratio(f64),
    /// The time by that of another row, which is named.
    Times(f64, &'static str),
    Time(Duration),
}

/// What a figure is to be at most.
#[derive(Clone, Copy)]
pub enum Aim {
    AtMost(f64),
    Within(Duration),
}

impl Figure {
    /// Whether the figure is within the aim.
    fn holds(self, aim: Aim) -> bool {
        match (self, aim) {
            (Figure::Ratio(x) | Figure::Times(x, _), Aim::AtMost(most)) => x <= most,
            (Figure::Time(time), Aim::Within(most)) => time <= most,
            _ => unreachable!("an aim is of the figure's kind"),
        }
    }
}

impl fmt::Display for Figure {
    fn fmt(&self, out: &mut fmt::Formatter) -> fmt::Result {
        match self {
            Figure::Ratio(ratio) => write!(out, "ratio {ratio:.2}"),
            Figure::Times(times, row) => write!(out, "{times:.2} times {row}"),
            Figure::Time(time) => write!(out, "{}", shown(*time)),
        }
    }
}

impl fmt::Display for Aim {
    fn fmt(&self, out: &mut fmt::Formatter) -> fmt::Result {
        match self {
            Aim::AtMost(most) => write!(out, "at most {most}"),
            Aim::Within(most) => write!(out, "at most {} ms", most.as_millis()),
        }
    }
}

/// Three digits, in microseconds or milliseconds.
fn shown(time: Duration) -> String {
    let (number, unit) = match time.as_secs_f64() * 1e6 {
        micros if micros < 1e3 => (micros, "µs"),
        micros => (micros / 1e3, "ms"),
    };
    let places = match number {
        number if number < 10.0 => 2,
        number if number < 100.0 => 1,
        _ => 0,
    };
    format!("{number:.places$} {unit}")
}

/// The table, printed row by row.
#[derive(Default)]
pub struct Table {
    aims: usize,
    missed: usize,
}

impl Table {
    pub fn begin() -> Table {
        println!("| What | Proved code | Tuned Rust | Figure | Aim | Holds |");
        println!("|---|---|---|---|---|---|");
        Table::default()
    }

    /// Proved code beside tuned code.
    pub fn ratio(&mut self, what: &str, ours: Duration, tuned: Duration, aim: Option<f64>) {
        let figure = Figure::Ratio(ours.as_secs_f64() / tuned.as_secs_f64());
        self.row(what, ours, Some(tuned), Some(figure), aim.map(Aim::AtMost));
    }

    pub fn row(
        &mut self,
        what: &str,
        ours: Duration,
        tuned: Option<Duration>,
        figure: Option<Figure>,
        aim: Option<Aim>,
    ) {
        let holds = match (figure, aim) {
            (Some(figure), Some(aim)) => {
                let holds = figure.holds(aim);
                self.aims += 1;
                self.missed += usize::from(!holds);
                if holds {
                    "yes"
                } else {
                    "**no**"
                }
            }
            _ => "",
        };
        println!(
            "| {what} | {} | {} | {} | {} | {holds} |",
            shown(ours),
            tuned.map_or(String::new(), shown),
            figure.map_or(String::new(), |figure| figure.to_string()),
            aim.map_or(String::new(), |aim| aim.to_string()),
        );
    }

    pub fn end(self) {
        let Table { aims, missed } = self;
        println!("\n{} of {aims} aims hold.", aims - missed);
    }
}
