//! The states of a run, one by one, each with the rule by which it was reached.

use crate::answer::{ended_object, named, Answers, Form, Worker, AMPLE};
use crate::input::Input;
use crate::json::string;
use crate::options::Options;
use crate::ACCEPTED;
use feguavy::{Buffers, Caller, End, Ended, Kind, Refusal};
use std::io::{self, Write};

pub fn each(options: &Options, output: &mut impl Write, status: &mut u8) -> io::Result<()> {
    let mut worker = Worker::new(options);
    let form = worker.form;
    for input in &options.inputs {
        let mut answers = Answers::default();
        if let Some(term) = worker.read(input, &mut answers) {
            if let Err(refusal) = trace(form, input, term, output)? {
                form.refused(input, refusal, &mut answers);
            }
        }
        *status = answers.status.max(*status);
        answers.write(output)?;
    }
    Ok(())
}

/// State k is that of a run of the term with budget k, and the counts of the runs with budgets k and k + 1 tell the rule of step k + 1.
/// The first run that is not spent is the last: its state has no step, or one that is too long. Each run begins at the term itself,
/// though n states then take some n × n / 2 steps: what is proved of the counts is about such runs, and a state of more than 64 levels
/// could not be run as a term.
fn trace(form: Form, input: &Input, term: &[u16], output: &mut impl Write) -> io::Result<Result<(), Refusal>> {
    let mut buffers = Buffers::for_limit(1);
    let mut before = None;
    let mut budget = 0;
    loop {
        let (ran, state) = buffers.run(term, budget, Caller::FIRST, AMPLE);
        let ended = match ran.answer {
            Ok(ended) => ended,
            Err(refusal) => return Ok(Err(refusal)),
        };
        let mut answers = Answers::default();
        // a step to a state that is too long is not taken: the state before it stands there already
        if ended.steps == budget {
            reached(form, input, before.map(|before| rule(before, ended)), ended.steps, state, &mut answers);
        }
        let is_last = ended.end != End::Spent || budget == form.options.budget;
        if is_last {
            let json = || ended_object(input, ended, state, &form.text(state));
            form.line(input, ACCEPTED, format_args!("{ended}"), json, &mut answers);
        }
        answers.write(output)?;
        if is_last {
            return Ok(Ok(()));
        }
        (before, budget) = (Some(ended), budget + 1);
    }
}

/// The rule of the last step of a run, of which the run before took one step less: the kind of which it has one more.
fn rule(before: Ended, ended: Ended) -> &'static str {
    let one_more = |kind: &Kind| ended.of_kind(*kind) == before.of_kind(*kind) + 1;
    Kind::ALL.into_iter().find(one_more).expect("a step is of some kind").rule()
}

/// A state, and the rule of the step to it: none for the term itself.
fn reached(form: Form, input: &Input, rule: Option<&str>, step: u32, state: &[u16], answers: &mut Answers) {
    let text = form.text(state);
    let json = || {
        let object = named(input, "state").number("step", step as usize).optional("rule", rule.map(string));
        object.words("state", state).text("text", &text)
    };
    // the states stand in one column for the first 9,999 steps
    let head = format!("{step}: {}", rule.unwrap_or(""));
    form.line(input, ACCEPTED, format_args!("{head:<18} {text}"), json, answers);
}
