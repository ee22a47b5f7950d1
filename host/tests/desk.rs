//! Sequences of runs, each given the desk that the one before returned (document 02, 2.9). What is proved of them (`Shares`) is seen
//! through this package: the steps of a caller's runs are what its allowance fell by, and runs of others change nothing for it.

use feguavy::{Buffers, Caller, Desk, Ran};

const TERMS: [&[u16]; 6] = [&[0], &[6, 0, 16], &[2, 4, 0, 16, 0], &[1, 3, 2, 4, 0, 16, 0, 0], &[2, 0, 0], &[7]];

/// A caller with the words and the budget of its run.
type Call = (Caller, &'static [u16], u32);

/// Calls that look random, always the same.
fn calls(count: usize) -> Vec<Call> {
    let mut number = 1u32;
    let mut below = |n: u32| {
        number = number.wrapping_mul(1664525).wrapping_add(1013904223);
        (number >> 8) % n
    };
    let mut call = || (Caller::ALL[below(8) as usize], TERMS[below(6) as usize], below(9));
    (0..count).map(|_| call()).collect()
}

/// What each run answers, with the state that it reached; and the desk after the last.
fn served(mut desk: Desk, calls: &[Call]) -> (Vec<(Caller, Ran, Vec<u16>)>, Desk) {
    let mut buffers = Buffers::for_limit(1);
    let mut serve = |&(caller, term, budget): &Call| {
        let (ran, state) = buffers.run(term, budget, caller, desk);
        desk = ran.desk;
        (caller, ran, state.to_vec())
    };
    (calls.iter().map(&mut serve).collect(), desk)
}

/// What a caller sees of its own runs: answer, state, and what is left to it.
fn seen_by(caller: Caller, entries: &[(Caller, Ran, Vec<u16>)]) -> Vec<(String, u32, &[u16])> {
    let own = entries.iter().filter(|(of, ..)| *of == caller);
    own.map(|(_, ran, state)| (ran.to_string(), ran.desk.allowance_of(caller), &state[..])).collect()
}

const FIRST: Desk = Desk { allowances: [0, 10, 50, 100, 500, 1000, u32::MAX - 1, u32::MAX] };

#[test]
fn steps_add_up() {
    let (entries, left) = served(FIRST, &calls(1000));
    for caller in Caller::ALL {
        let own = entries.iter().filter(|(of, ..)| *of == caller);
        let steps: u32 = own.filter_map(|(_, ran, _)| ran.answer.ok()).map(|ended| ended.steps).sum();
        assert_eq!(FIRST.allowance_of(caller), left.allowance_of(caller) + steps, "{caller}");
    }
    // one caller had nothing, one used all that it had, and the others have some left
    assert_eq!(left.allowances.map(|left| left == 0)[..2], [true, true]);
    assert!(left.allowances[5..].iter().all(|&left| left > 0));
}

#[test]
fn others_change_nothing() {
    let all = calls(1000);
    let (entries, left) = served(FIRST, &all);
    for caller in Caller::ALL {
        // the others' runs dropped, and on a desk on which they have other allowances
        let own: Vec<Call> = all.iter().copied().filter(|(of, ..)| *of == caller).collect();
        let mut desk = Desk { allowances: FIRST.allowances.map(|allowance| allowance / 3) };
        desk.allowances[caller.number() as usize] = FIRST.allowance_of(caller);
        let (alone, left_alone) = served(desk, &own);
        assert_eq!(seen_by(caller, &entries), seen_by(caller, &alone), "{caller}");
        assert_eq!(left.allowance_of(caller), left_alone.allowance_of(caller));
    }
}
