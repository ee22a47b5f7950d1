//! Requests of the line protocol that both sides answer, from the reference's generator.

use feguavy::Desk;
use reference::gen::Gen;

/// What is asked of a term.
#[derive(Clone, Copy, Debug, PartialEq)]
pub enum Call {
    Check {
        limit: u32,
    },
    /// `kinds` says whether the line asks for the steps by kind too; the call is the same. A line is of caller 0, alone at the desk.
    Run {
        budget: u32,
        caller: u32,
        desk: Desk,
        kinds: bool,
    },
    Part {
        number: u32,
    },
}

impl Call {
    /// The verbs of the calls, in their order.
    pub const VERBS: [&'static str; 4] = ["check", "run", "kinds", "part"];

    pub fn verb(&self) -> &'static str {
        match self {
            Call::Check { .. } => "check",
            Call::Run { kinds: false, .. } => "run",
            Call::Run { kinds: true, .. } => "kinds",
            Call::Part { .. } => "part",
        }
    }

    /// The steps granted to a run: none where its caller has no allowance. A call that is no run has no grant.
    pub fn grant(&self) -> Option<u32> {
        match *self {
            Call::Run { budget, caller, desk, .. } => {
                let allowance = desk.allowances.get(caller as usize).copied();
                Some(budget.min(allowance.unwrap_or(0)))
            }
            _ => None,
        }
    }
}

#[derive(Clone, Debug)]
pub struct Request {
    pub call: Call,
    pub term: Vec<u16>,
}

impl Request {
    /// The request of a line; none where the verb is another.
    pub fn of(line: &str) -> Option<Request> {
        let (front, words) = line.split_once('|')?;
        let mut fields = front.split_whitespace();
        let verb = fields.next()?;
        let numbers: Vec<u32> = fields.map(|n| n.parse().ok()).collect::<Option<_>>()?;
        let call = match (verb, &numbers[..]) {
            ("check", &[limit]) => Call::Check { limit },
            ("run" | "kinds", &[budget, allowance]) => {
                Call::Run { budget, caller: 0, desk: Desk::alone(allowance), kinds: verb == "kinds" }
            }
            ("part", &[number]) => Call::Part { number },
            _ => return None,
        };
        Some(Request { call, term: words.split_whitespace().map(|w| w.parse().ok()).collect::<Option<_>>()? })
    }

    /// The line of a request, of a run as if its caller were alone at the desk.
    pub fn line(&self) -> String {
        let numbers = match self.call {
            Call::Check { limit } => format!("{limit}"),
            Call::Run { budget, caller, desk, .. } => {
                let allowance = desk.allowances.get(caller as usize).copied();
                format!("{budget} {}", allowance.unwrap_or(0))
            }
            Call::Part { number } => format!("{number}"),
        };
        let words: String = self.term.iter().map(|w| format!(" {w}")).collect();
        format!("{} {numbers} |{words}", self.call.verb())
    }
}

/// Random requests without end, always the same for a seed. The generator has other verbs too, which are passed over.
pub struct Requests(pub Gen);

impl Requests {
    pub fn of_seed(seed: u64) -> Requests {
        Requests(Gen::new(seed))
    }
}

impl Iterator for Requests {
    type Item = Request;

    fn next(&mut self) -> Option<Request> {
        loop {
            let request = Request::of(&self.0.line());
            if request.is_some() {
                return request;
            }
        }
    }
}

#[cfg(test)]
mod tests {
    use super::*;

    #[test]
    fn a_line_and_back() {
        for line in ["check 32 | 4 0 16", "run 7 4294967295 |", "kinds 7 4294967295 | 0", "part 2 | 2 0 0"] {
            assert_eq!(Request::of(line).unwrap().line(), line);
        }
    }

    #[test]
    fn other_lines_are_no_requests() {
        for line in ["", "next | 0", "kinds 1 | 0", "check 1 2 | 0", "check | 0", "check 1 | 65536", "check 1"] {
            assert!(Request::of(line).is_none(), "{line}");
        }
    }
}
