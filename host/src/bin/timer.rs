//! How long the calls take on the request lines `check` and `run` of standard input: `timer [SECONDS]`. A line for each kind:
//!     check CALLS NANOSECONDS-A-CALL, slowest NANOSECONDS
//!     run CALLS NANOSECONDS-A-CALL STEPS NANOSECONDS-A-STEP, slowest step NANOSECONDS
//! The lines are read first; then each kind is called over and over for about that long, on slices that stay the same. The slowest
//! is that of the lines, each by the least of five calls.

use feguavy::{Caller, Desk};
use std::hint::black_box;
use std::io::BufRead;
use std::time::Instant;

struct Request {
    first: u32,
    second: u32,
    words: Vec<u16>,
}

fn request(line: &str, kind: &str) -> Option<Request> {
    let (front, words) = line.strip_prefix(kind)?.split_once('|')?;
    let mut numbers = front.split_whitespace().map(|n| n.parse::<u32>());
    let first = numbers.next()?.ok()?;
    let second = numbers.next().map_or(Ok(0), |n| n).ok()?;
    let words = words.split_whitespace().map(|w| w.parse().ok()).collect::<Option<_>>()?;
    Some(Request { first, second, words })
}

/// Calls `once` on every request again and again, and answers the calls made and the nanoseconds that they took.
fn repeat(requests: &[Request], seconds: f64, mut once: impl FnMut(&Request)) -> (u64, f64) {
    let (start, mut rounds) = (Instant::now(), 0);
    while rounds == 0 || start.elapsed().as_secs_f64() < seconds {
        requests.iter().for_each(&mut once);
        rounds += 1;
    }
    (rounds * requests.len() as u64, start.elapsed().as_nanos() as f64)
}

/// The least nanoseconds of five calls of `once`.
fn least(mut once: impl FnMut()) -> f64 {
    let time = |_| {
        let start = Instant::now();
        once();
        start.elapsed().as_nanos() as f64
    };
    (0..5).map(time).fold(f64::MAX, f64::min)
}

fn main() {
    let seconds = std::env::args().nth(1).and_then(|s| s.parse().ok()).unwrap_or(2.0);
    let lines: Vec<String> = std::io::stdin().lock().lines().map(|l| l.unwrap()).collect();
    let of = |kind: &str| -> Vec<Request> { lines.iter().filter_map(|l| request(l, kind)).collect() };
    let (checks, runs) = (of("check "), of("run "));
    let mut work = vec![0; feguavy::check_work(feguavy::LARGEST_LIMIT)];
    let mut result = vec![0; feguavy::LONGEST];
    if !checks.is_empty() {
        let (calls, ns) = repeat(&checks, seconds, |c| {
            black_box(feguavy::check(black_box(&c.words), c.first, &mut work, &mut result));
        });
        let slowest = checks.iter().map(|c| least(|| _ = black_box(feguavy::check(&c.words, c.first, &mut work, &mut result))));
        let slowest = slowest.fold(0.0, f64::max);
        println!("check {} {:.1}, slowest {:.1}", calls, ns / calls as f64, slowest);
    }
    if !runs.is_empty() {
        let mut steps = 0u64;
        let (calls, ns) = repeat(&runs, seconds, |c| {
            let desk = Desk::alone(c.second);
            let ran = black_box(feguavy::run(black_box(&c.words), c.first, &mut work, &mut result, Caller::FIRST, desk));
            steps += ran.answer.map_or(0, |e| e.steps as u64);
        });
        let slowest = runs.iter().map(|c| {
            let mut taken = 0;
            let ns = least(|| {
                let ran = feguavy::run(&c.words, c.first, &mut work, &mut result, Caller::FIRST, Desk::alone(c.second));
                taken = ran.answer.map_or(0, |e| e.steps);
            });
            if taken == 0 {
                0.0
            } else {
                ns / taken as f64
            }
        });
        let slowest = slowest.fold(0.0, f64::max);
        println!("run {} {:.1} {} {:.1}, slowest step {:.1}", calls, ns / calls as f64, steps, ns / steps.max(1) as f64, slowest);
    }
}
