//! The stored lines of the test program `slices`, each with what the same call of the reference answers and leaves.

use comparison::request::Call;
use comparison::side::{reference, Answer, Ran};
use feguavy::Desk;
use std::path::Path;

/// The word that a slice holds at `i` before a call.
fn garbage(i: usize) -> u16 {
    (i % 20000) as u16 + 40000
}

fn spoilt(length: usize) -> Vec<u16> {
    (0..length).map(garbage).collect()
}

/// From where on the words are as they were.
fn kept_from(words: &[u16]) -> usize {
    words.iter().enumerate().rposition(|(i, &word)| word != garbage(i)).map_or(0, |last| last + 1)
}

fn joined(numbers: &[impl ToString]) -> String {
    numbers.iter().map(|n| format!(" {}", n.to_string())).collect()
}

/// The numbers behind the arrow: of a check its answer, place and length; of a run its answer, place, end, steps and counts, and the
/// desk behind ` left`.
fn told(answer: Answer) -> String {
    let of_run = |reason, place: usize, ran: Ran| {
        let counts = [ran.end, ran.steps, ran.substitutions, ran.unfoldings, ran.cancellations];
        format!(" {reason} {place}{} left{}", joined(&counts), joined(&ran.desk.allowances))
    };
    match answer {
        Answer::Typed { length } => format!(" 0 0 {length}"),
        Answer::Refused { reason, place, ran: None } => format!(" {reason} {place} 0"),
        Answer::Refused { reason, place, ran: Some(ran) } => of_run(reason, place, ran),
        Answer::Ended(ran) => of_run(0, 0, ran),
        Answer::Part { .. } => panic!("the program looks no part up"),
    }
}

/// The line that the reference's call makes of the request in front of the arrow, on slices of the lengths that the line names.
fn line(stored: &str) -> String {
    let (asked, said) = stored.split_once(" ->").expect("an arrow");
    let (front, words) = asked.split_once(" |").expect("a bar");
    let term: Vec<u16> = words.split_whitespace().map(|word| word.parse().unwrap()).collect();
    let numbers: Vec<u32> = front.split_whitespace().skip(1).map(|n| n.parse().unwrap()).collect();
    let call = match numbers[..] {
        [limit] => Call::Check { limit },
        [caller, budget, ref allowances @ ..] => {
            Call::Run { budget, caller, desk: Desk { allowances: allowances.try_into().unwrap() }, kinds: false }
        }
        [] => panic!("{stored}"),
    };
    let length = |name: &str| said.split(name).nth(1).and_then(|rest| rest.split_whitespace().next()).unwrap().parse().unwrap();
    let (mut work, mut result) = (spoilt(length(" work ")), spoilt(length(" out ")));
    let answer = told(reference(call, &term, &mut work, &mut result));
    let zeros = work.iter().take_while(|&&word| word == 0).count();
    let changed = joined(&result[..kept_from(&result)]);
    let (room, size) = (work.len(), result.len());
    format!("{asked} ->{answer} work {room} zeros={zeros} kept={} out {size} |{changed}", kept_from(&work))
}

#[test]
fn stored_as_the_reference_answers() {
    let stored = Path::new(env!("CARGO_MANIFEST_DIR")).join("../crates/slices/stdout");
    let stored = std::fs::read_to_string(stored).unwrap();
    for said in stored.lines() {
        assert_eq!(line(said), said);
    }
    let count = |start: &str| stored.lines().filter(|line| line.starts_with(start)).count();
    assert!(count("check ") > 400 && count("run ") > 300, "{} checks, {} runs", count("check "), count("run "));
}
