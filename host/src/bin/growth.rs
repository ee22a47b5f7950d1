//! One call of a size, for counting instructions (scripts/growth): `growth KIND SIZE`. What is counted is the call alone.
//!
//!     reading WORDS            a part lookup that finds nothing
//!     left|right|balanced WORDS   a run whose last step substitutes into a body of that shape
//!     left-before, .. WORDS    the same run without that step
//!     limit L                  a check of one term at that limit
//!     term WORDS               a check of a term of that length at limit 1,024
//!     steps WORDS, first WORDS    1,001 steps of a state of that length, and one of them
//!     betas WORDS, beta WORDS     the same of a state whose function has about that many words, before the argument

use feguavy::shapes::{redex, shape};
use feguavy::{Caller, Desk};
use std::hint::black_box;

/// A state that steps to itself: a recursion in whose body the variable stands first.
fn looping(words: usize) -> Vec<u16> {
    [&[2, 6, 0, 16][..], &shape(5, words - 4, "balanced", 0)].concat()
}

/// A function with a long annotation that applies its argument to itself, given itself: the state steps to itself by S_BETA, and its
/// argument stands behind the whole function.
fn applying(words: usize) -> Vec<u16> {
    let function = [&[4][..], &shape(5, words, "balanced", 0), &[2, 16, 16]].concat();
    [&[2][..], &function, &function].concat()
}

fn main() {
    let mut arguments = std::env::args().skip(1);
    let (kind, size) = (arguments.next().expect("a kind"), arguments.next().expect("a size").parse::<usize>().unwrap());
    let mut work = vec![0; feguavy::check_work(feguavy::LARGEST_LIMIT)];
    let mut result = vec![0; feguavy::LONGEST];
    let mut run = |term: &[u16], budget| {
        let ran = feguavy::run(black_box(term), budget, &mut work, &mut result, Caller::FIRST, Desk::alone(u32::MAX));
        black_box(ran.answer.unwrap());
    };
    match kind.as_str() {
        "reading" => _ = black_box(feguavy::part(black_box(&shape(5, size, "balanced", 0)), 3).len()),
        "left" | "right" | "balanced" => {
            let (term, steps) = redex(&kind, size);
            run(&term, steps + 1)
        }
        "left-before" | "right-before" | "balanced-before" => {
            let (term, steps) = redex(kind.trim_end_matches("-before"), size);
            run(&term, steps)
        }
        "steps" => run(&looping(size), 1001),
        "first" => run(&looping(size), 1),
        "betas" => run(&applying(size), 1001),
        "beta" => run(&applying(size), 1),
        "limit" => _ = black_box(feguavy::check(black_box(&shape(5, 255, "balanced", 0)), size as u32, &mut work, &mut result)),
        "term" => _ = black_box(feguavy::check(black_box(&shape(5, size, "balanced", 0)), 1024, &mut work, &mut result)),
        _ => panic!("no such kind"),
    }
}
