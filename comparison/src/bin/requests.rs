//! Random requests of the line protocol, answered by the proved program `batch` and by the reference: `requests SEED COUNT BATCH`.
//! Exit status 1 where an answer line differs, or where what was compared is too little (`Tally::covering`).

use comparison::program::{agreed, answers_of_program, answers_of_reference, Asked};
use comparison::request::{Request, Requests};
use comparison::tally::{report, Tally};
use std::process::ExitCode;

fn lines(requests: &[Request]) -> Vec<String> {
    requests.iter().map(Request::line).collect()
}

/// Counts the requests, up to the first whose answers differ.
fn compare(requests: &[Request], proved: &[String], reference: &[String]) -> Result<Tally, String> {
    let mut tally = Tally::default();
    for (request, kind) in requests.iter().zip(agreed(&lines(requests), proved, reference)?) {
        tally.add(request, kind);
    }
    tally.covering(requests.len())
}

fn main() -> ExitCode {
    let Some(Asked { seed, count, program }) = Asked::of(std::env::args().skip(1)) else {
        eprintln!("requests SEED COUNT BATCH");
        return ExitCode::from(2);
    };
    let requests: Vec<Request> = Requests::of_seed(seed).take(count).collect();
    let lines = lines(&requests);
    let compared = answers_of_program(&program, &lines).and_then(|ours| compare(&requests, &ours, &answers_of_reference(&lines)));
    report("requests", seed, compared)
}

#[cfg(test)]
mod tests {
    use super::*;
    use comparison::grant::{ended, AT};

    /// Requests with their right answers, and the answers with one change.
    fn compared(change: impl FnOnce(&mut Vec<String>)) -> Result<Tally, String> {
        let requests: Vec<Request> = Requests::of_seed(7).take(300).collect();
        let reference = answers_of_reference(&lines(&requests));
        let mut ours = reference.clone();
        change(&mut ours);
        compare(&requests, &ours, &reference)
    }

    #[test]
    fn the_same_answers_pass() {
        assert_eq!(compared(|_| ()).unwrap().total(), 300);
    }

    #[test]
    fn a_wrong_answer_is_noticed() {
        for at in [0, 150, 299] {
            assert!(compared(|ours| ours[at].push_str(" 0")).is_err());
        }
    }

    /// The order of the ends before document 02, 2.2: `ran 2` where a value or a stuck state is reached on the last step.
    #[test]
    fn spent_first_is_noticed() {
        let at = Requests::of_seed(7).position(|request| ended(&request) == AT).expect("a grant of the steps needed");
        assert!(compared(|ours| ours[at].replace_range(4..5, "2")).is_err());
    }

    /// The answer to `kinds` has the counts behind the steps: `ran END STEPS BETA MU CANCEL LEFT | WORDS`.
    #[test]
    fn a_count_lost_or_in_anothers_place_is_noticed() {
        for (one, other) in [(3, 4), (3, 5), (4, 5)] {
            let swapped = |answer: &String| {
                let mut fields: Vec<&str> = answer.split(' ').collect();
                fields.swap(one, other);
                fields.join(" ")
            };
            assert!(compared(|ours| {
                let differs = |answer: &&mut String| is_by_kind(answer) && swapped(answer) != **answer;
                let answer = ours.iter_mut().find(differs).expect("an answer with other counts");
                *answer = swapped(answer);
            })
            .is_err());
        }
        assert!(compared(|ours| {
            let answer = ours.iter_mut().find(|answer| is_by_kind(answer)).expect("an answer by kind");
            let fields: Vec<&str> = answer.split(' ').collect();
            *answer = [&fields[..3], &fields[6..]].concat().join(" ");
        })
        .is_err());
    }

    /// Whether the answer is that of a run to `kinds`: `ran` and six numbers stand before the bar.
    fn is_by_kind(answer: &str) -> bool {
        answer.starts_with("ran ") && answer.split(' ').position(|field| field == "|") == Some(7)
    }
}
