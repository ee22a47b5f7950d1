//! The calls of the archive with lent slices, and buffers of the right lengths for them.

use crate::raw;
use crate::{Caller, Checked, Desk, End, Ended, Ran, Refusal};

/// The largest limit of a check.
pub const LARGEST_LIMIT: u32 = 1024;
/// The longest term and state, in words.
pub const LONGEST: usize = 1024;
/// The working words of a run.
pub const RUN_WORK: usize = 8192;

/// The working words of a check at a limit.
///
/// ```
/// assert_eq!(feguavy::check_work(32), 1024 * 32);
/// ```
pub const fn check_work(limit: u32) -> usize {
    1024 * limit as usize
}

/// The type of a closed term within a limit: the first words of `output` where it is typed.
///
/// ```
/// use feguavy::{check, check_work, Checked};
/// let (mut work, mut output) = (vec![0; check_work(5)], vec![0; 5]);
/// assert_eq!(check(&[4, 0, 4, 16, 16], 5, &mut work, &mut output), Checked::Typed(5));
/// assert_eq!(output, [5, 0, 5, 16, 17]);
/// ```
pub fn check(term: &[u16], limit: u32, work: &mut [u16], output: &mut [u16]) -> Checked {
    let r = raw::check(term, limit, work, output);
    match r.answer {
        0 => Checked::Typed(r.length as usize),
        number => Checked::Refused(Refusal::of(number, r.place)),
    }
}

/// Steps a closed term for a caller of the desk, at most `budget` times and at most as often as its allowance says: the first words of
/// `state` are the state reached.
///
/// ```
/// use feguavy::{run, Caller, Desk, End, Ended, RUN_WORK, LONGEST};
/// let (mut work, mut state) = (vec![0; RUN_WORK], vec![9; LONGEST]);
/// let desk = Desk { allowances: [10, 20, 30, 40, 50, 60, 70, 80] };
/// let third = Caller::try_from(2).unwrap();
/// let ran = run(&[1, 3, 2, 4, 0, 16, 0, 0], 1000, &mut work, &mut state, third, desk);
/// let ended = ran.answer.unwrap();
/// assert_eq!(ended, Ended { end: End::Value, steps: 1, substitutions: 0, unfoldings: 0, cancellations: 1 });
/// assert_eq!(ended.to_string(), "ended at a value after 1 step (1 cancelled cast)");
/// assert_eq!((state[0], state[1]), (0, 9));
/// // the step is taken from the caller's own allowance
/// assert_eq!(ran.desk.allowances, [10, 20, 29, 40, 50, 60, 70, 80]);
/// // a budget of just the steps needed will do
/// assert_eq!(run(&[1, 3, 2, 4, 0, 16, 0, 0], 1, &mut work, &mut state, third, desk), ran);
/// ```
pub fn run(term: &[u16], budget: u32, work: &mut [u16], state: &mut [u16], caller: Caller, desk: Desk) -> Ran {
    let r = raw::run(term, budget, work, state, caller.number(), desk);
    let answer = match r.answer {
        0 => Ok(Ended {
            end: End::try_from(r.end).expect("an end's number"),
            steps: r.steps,
            substitutions: r.substitutions,
            unfoldings: r.unfoldings,
            cancellations: r.cancellations,
        }),
        number => Err(Refusal::of(number, r.place)),
    };
    Ran { answer, desk: r.desk }
}

/// The first or second part of a closed term, of the caller's own words; empty where there is none.
///
/// ```
/// assert_eq!(feguavy::part(&[2, 4, 0, 16, 0], 2), [0]);
/// assert!(feguavy::part(&[2, 4, 0, 16, 0], 3).is_empty());
/// ```
pub fn part(term: &[u16], number: u32) -> &[u16] {
    let found = raw::part(term, number);
    &term[found.start..found.start + found.length]
}

/// The length of the term that a list begins with, or of the list where it ends inside the term: how long a state is.
///
/// ```
/// assert_eq!(feguavy::length(&[2, 4, 0, 16, 0, 7, 7]), 5);
/// ```
pub fn length(words: &[u16]) -> usize {
    let mut left = 1;
    for (at, &word) in words.iter().enumerate() {
        if left == 0 {
            return at;
        }
        left = left + crate::word::parts(word) - 1;
    }
    words.len()
}

/// Slices of the right lengths for checks at one limit and for runs.
///
/// ```
/// use feguavy::{Buffers, Caller, Desk};
/// let mut buffers = Buffers::for_limit(32);
/// let (ran, state) = buffers.run(&[6, 0, 16], 10, Caller::FIRST, Desk::alone(100));
/// assert_eq!(ran.to_string(), "ended with every step granted taken after 10 steps (10 unfoldings)");
/// assert_eq!(state, [6, 0, 16]);
/// // the next run finds the desk that this one left
/// assert_eq!(ran.desk, Desk::alone(90));
/// ```
#[derive(Clone, Debug)]
pub struct Buffers {
    limit: u32,
    work: Vec<u16>,
    result: Vec<u16>,
}

impl Buffers {
    /// For checks at `limit` (which a check refuses if it is not allowed) and for runs.
    pub fn for_limit(limit: u32) -> Buffers {
        let room = check_work(limit.min(LARGEST_LIMIT)).max(RUN_WORK);
        Buffers { limit, work: vec![0; room], result: vec![0; LONGEST] }
    }

    /// The type of a closed term.
    pub fn type_of(&mut self, term: &[u16]) -> Result<&[u16], Refusal> {
        match check(term, self.limit, &mut self.work, &mut self.result) {
            Checked::Typed(length) => Ok(&self.result[..length]),
            Checked::Refused(refusal) => Err(refusal),
        }
    }

    /// A run for a caller of the desk, with the state that it reached: none where it is refused.
    pub fn run(&mut self, term: &[u16], budget: u32, caller: Caller, desk: Desk) -> (Ran, &[u16]) {
        let ran = run(term, budget, &mut self.work, &mut self.result, caller, desk);
        let count = if ran.answer.is_ok() { length(&self.result) } else { 0 };
        (ran, &self.result[..count])
    }
}
