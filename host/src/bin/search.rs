//! A search for slow inputs: `search SECONDS [SEED] < LINES`. Request lines are mutated and recombined; the slowest check and the
//! slowest step found are printed as request lines with their nanoseconds, slowest first.

use feguavy::{check_work, Caller, Desk, LARGEST_LIMIT, LONGEST};
use std::hint::black_box;
use std::io::BufRead;
use std::time::{Duration, Instant};

/// The steps that are timed at most, of a run alone at the desk.
const STEPS: u32 = 100;
const DESK: Desk = Desk::alone(STEPS);

/// A small generator of numbers.
struct Numbers(u64);

impl Numbers {
    fn below(&mut self, n: usize) -> usize {
        self.0 ^= self.0 << 13;
        self.0 ^= self.0 >> 7;
        self.0 ^= self.0 << 17;
        (self.0 % n as u64) as usize
    }
}

struct Bench {
    work: Vec<u16>,
    result: Vec<u16>,
}

impl Bench {
    /// Nanoseconds of a check, the least of a few.
    fn check(&mut self, term: &[u16], limit: u32) -> u64 {
        self.least(|b| _ = black_box(feguavy::check(black_box(term), limit, &mut b.work, &mut b.result)))
    }

    /// Nanoseconds of one step, over at most so many.
    fn step(&mut self, term: &[u16]) -> u64 {
        let steps = match feguavy::run(term, STEPS, &mut self.work, &mut self.result, Caller::FIRST, DESK).answer {
            Ok(ended) if ended.steps > 0 => ended.steps as u64,
            _ => return 0,
        };
        let run = |b: &mut Bench, budget| {
            _ = black_box(feguavy::run(black_box(term), budget, &mut b.work, &mut b.result, Caller::FIRST, DESK))
        };
        let none = self.least(|b| run(b, 0));
        self.least(|b| run(b, STEPS)).saturating_sub(none) / steps
    }

    fn least(&mut self, mut call: impl FnMut(&mut Bench)) -> u64 {
        (0..3)
            .map(|_| {
                let start = Instant::now();
                call(self);
                start.elapsed().as_nanos() as u64
            })
            .min()
            .unwrap()
    }
}

/// The subterm that begins at a place.
fn subterm(term: &[u16], at: usize) -> &[u16] {
    &term[at..at + feguavy::length(&term[at..])]
}

/// A term with one subterm replaced by one of another, or one word by another.
fn mutated(term: &[u16], other: &[u16], numbers: &mut Numbers) -> Vec<u16> {
    let at = numbers.below(term.len());
    if numbers.below(3) == 0 {
        let mut changed = term.to_vec();
        changed[at] = [0, 1, 2, 3, 4, 5, 6, 16, 17, 18, 19][numbers.below(11)];
        return changed;
    }
    let old = subterm(term, at);
    let new = subterm(other, numbers.below(other.len()));
    [&term[..at], new, &term[at + old.len()..]].concat()
}

fn main() {
    let mut arguments = std::env::args().skip(1);
    let seconds = arguments.next().and_then(|s| s.parse().ok()).unwrap_or(60);
    let mut numbers = Numbers(arguments.next().and_then(|s| s.parse().ok()).unwrap_or(88172645463325252));
    let mut bench = Bench { work: vec![0; check_work(LARGEST_LIMIT)], result: vec![0; LONGEST] };
    let lines: Vec<String> = std::io::stdin().lock().lines().map(|l| l.unwrap()).collect();
    let mut terms: Vec<Vec<u16>> = lines
        .iter()
        .filter_map(|l| l.split_once('|')?.1.split_whitespace().map(|w| w.parse().ok()).collect::<Option<Vec<u16>>>())
        .filter(|t| !t.is_empty() && feguavy::length(t) == t.len())
        .collect();
    terms.sort_by_key(|t| std::cmp::Reverse(t.len()));
    terms.truncate(2000);
    let mut checks: Vec<(u64, u32, Vec<u16>)> = Vec::new();
    let mut steps: Vec<(u64, u32, Vec<u16>)> = Vec::new();
    let end = Instant::now() + Duration::from_secs(seconds);
    while Instant::now() < end {
        let base = match numbers.below(4) {
            0 if !checks.is_empty() => checks[numbers.below(checks.len())].2.clone(),
            1 if !steps.is_empty() => steps[numbers.below(steps.len())].2.clone(),
            _ => terms[numbers.below(terms.len())].clone(),
        };
        let other = &terms[numbers.below(terms.len())];
        let term = mutated(&base, other, &mut numbers);
        if term.is_empty() || term.len() > LONGEST {
            continue;
        }
        let limit = [1024, 1024, 1023, 512][numbers.below(4)];
        keep(&mut checks, bench.check(&term, limit), limit, &term);
        keep(&mut steps, bench.step(&term), 1000, &term);
    }
    for (ns, limit, term) in checks {
        println!("check {limit} |{}  # {ns}", text(&term));
    }
    for (ns, budget, term) in steps {
        println!("run {budget} 4294967295 |{}  # {ns}", text(&term));
    }
}

fn text(term: &[u16]) -> String {
    term.iter().map(|w| format!(" {w}")).collect()
}

/// Keeps the twenty slowest.
fn keep(slowest: &mut Vec<(u64, u32, Vec<u16>)>, ns: u64, number: u32, term: &[u16]) {
    slowest.push((ns, number, term.to_vec()));
    slowest.sort_by_key(|s| std::cmp::Reverse(s.0));
    slowest.dedup_by(|a, b| a.2 == b.2);
    slowest.truncate(20);
}
