//! The time of the proved archive over the reference's, for docs/PERFORMANCE.md: `ratios SECONDS SEED…`. Both are called in this one
//! process on the same requests and the same lent slices, in turns over all of them; the least time of a turn counts. The mixed
//! requests are random ones, of each seed; the slow ones are the reference's own, measured again beside each seed.

use comparison::request::{Call, Request, Requests};
use comparison::side::{proved, reference, Answer, Side};
use std::hint::black_box;
use std::time::Instant;

/// Mixed requests of a seed: enough that no single one decides.
const MIXED: usize = 4000;
/// The steps of a slow run: the same at each step, and the reference's own budget would take seconds.
const SLOW_STEPS: u32 = 10_000;
/// Turns of each side at least, however few seconds are given.
const TURNS: usize = 5;

/// What a ratio is of: a request each, or a step each.
#[derive(Clone, Copy, PartialEq)]
enum Unit {
    Check,
    Step,
    Part,
}

impl Unit {
    const ALL: [Unit; 3] = [Unit::Check, Unit::Step, Unit::Part];

    fn name(self) -> &'static str {
        match self {
            Unit::Check => "check",
            Unit::Step => "run, a step",
            Unit::Part => "part lookup",
        }
    }

    fn is_of(self, call: Call) -> bool {
        self == match call {
            Call::Check { .. } => Unit::Check,
            Call::Run { .. } => Unit::Step,
            Call::Part { .. } => Unit::Part,
        }
    }
}

/// Runs by `run` alone: `kinds` is the same call, and without it a seed has the requests that it always had, so that figures of
/// different commits are of the same terms.
fn mixed(seed: u64) -> Vec<Request> {
    Requests::of_seed(seed).filter(|r| !matches!(r.call, Call::Run { kinds: true, .. })).take(MIXED).collect()
}

fn slow() -> Vec<Request> {
    let cut = |mut request: Request| {
        if let Call::Run { budget, .. } = &mut request.call {
            *budget = SLOW_STEPS.min(*budget);
        }
        request
    };
    reference::bench::lines().iter().filter_map(|line| Request::of(line)).map(cut).collect()
}

/// The slices that both sides are lent.
struct Slices {
    work: Vec<u16>,
    result: Vec<u16>,
}

impl Slices {
    /// Long enough for every call. They hold ones at first, so that each page is written: zeros that nobody has written are one and
    /// the same page to the machine, and reading them costs less than reading memory.
    fn new() -> Slices {
        Slices { work: vec![1; feguavy::check_work(feguavy::LARGEST_LIMIT)], result: vec![1; feguavy::LONGEST] }
    }
}

/// One turn over all requests: its nanoseconds, and how many checks, steps or lookups there were.
fn turn(side: Side, requests: &[&Request], slices: &mut Slices) -> (f64, u64) {
    let start = Instant::now();
    let mut units = 0;
    for request in requests {
        let answer = side(request.call, black_box(&request.term), &mut slices.work, &mut slices.result);
        units += match (request.call, black_box(answer)) {
            (Call::Run { .. }, Answer::Ended(ran)) => ran.steps as u64,
            (Call::Run { .. }, _) => 0,
            _ => 1,
        };
    }
    (start.elapsed().as_nanos() as f64, units)
}

/// The least nanoseconds of a check, a step or a lookup on each side, proved and reference; none where nothing asks for one.
fn measured(unit: Unit, requests: &[Request], seconds: f64, slices: &mut Slices) -> Option<[f64; 2]> {
    let requests: Vec<&Request> = requests.iter().filter(|r| unit.is_of(r.call)).collect();
    if requests.is_empty() {
        return None;
    }
    let (begin, mut turns, mut least) = (Instant::now(), 0, [f64::MAX; 2]);
    while turns < TURNS || begin.elapsed().as_secs_f64() < seconds {
        let [ours, theirs] = [proved as Side, reference].map(|side| turn(side, &requests, slices));
        assert_eq!(ours.1, theirs.1, "the two sides took other steps");
        least = [least[0].min(ours.0 / ours.1 as f64), least[1].min(theirs.0 / theirs.1 as f64)];
        turns += 1;
    }
    Some(least)
}

/// The median of ratios and their range, as a cell of the table.
fn cell(mut ratios: Vec<f64>) -> String {
    if ratios.is_empty() {
        return String::new();
    }
    ratios.sort_by(f64::total_cmp);
    let (least, most) = (ratios[0], ratios[ratios.len() - 1]);
    let median = (ratios[(ratios.len() - 1) / 2] + ratios[ratios.len() / 2]) / 2.0;
    format!("{median:.2} ({least:.2}–{most:.2})")
}

fn main() {
    const USAGE: &str = "ratios SECONDS SEED…";
    let mut arguments = std::env::args().skip(1);
    let seconds: f64 = arguments.next().expect(USAGE).parse().expect(USAGE);
    let seeds: Vec<u64> = arguments.map(|seed| seed.parse().expect(USAGE)).collect();
    assert!(!seeds.is_empty(), "{USAGE}");
    let mut slices = Slices::new();
    let mut columns: [[Vec<f64>; 2]; Unit::ALL.len()] = Default::default();
    println!("nanoseconds, proved and reference, and their ratio");
    for &seed in &seeds {
        for (column, (kind, requests)) in [("mixed", mixed(seed)), ("slow", slow())].into_iter().enumerate() {
            for (row, unit) in Unit::ALL.into_iter().enumerate() {
                let Some([ours, theirs]) = measured(unit, &requests, seconds, &mut slices) else { continue };
                println!("seed {seed:<10} {:<11} {kind:<5} {ours:>10.1} {theirs:>10.1} {:>5.2}", unit.name(), ours / theirs);
                columns[row][column].push(ours / theirs);
            }
        }
    }
    println!("\nThe median over the seeds (and the range):\n\n| What | mixed | slow |\n|---|---|---|");
    for (unit, [mixed, slow]) in Unit::ALL.into_iter().zip(columns) {
        println!("| {} | {} | {} |", unit.name(), cell(mixed), cell(slow));
    }
}
