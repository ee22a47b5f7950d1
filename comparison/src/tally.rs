//! How many requests or calls were compared, by verb and by kind of answer.

use crate::grant;
use crate::request::{Call, Request};
use feguavy::CALLERS;
use std::collections::BTreeMap;
use std::fmt;
use std::process::ExitCode;

#[derive(Default)]
pub struct Tally {
    /// By verb, kind of answer and number.
    kinds: BTreeMap<(&'static str, &'static str, u32), usize>,
    /// Runs by caller, those above 7 last.
    callers: [usize; CALLERS + 1],
}

impl Tally {
    /// One more request, answered by that kind and number (0 where the kind has none). Runs that ended are told apart by their grants.
    pub fn add(&mut self, request: &Request, (kind, number): (&'static str, u32)) {
        let kind = if kind == "ended" { grant::ended(request) } else { kind };
        *self.kinds.entry((request.call.verb(), kind, number)).or_default() += 1;
        if let Call::Run { caller, .. } = request.call {
            self.callers[CALLERS.min(caller as usize)] += 1;
        }
    }

    pub fn of_verb(&self, verb: &str) -> usize {
        self.kinds.iter().filter(|(key, _)| key.0 == verb).map(|(_, count)| count).sum()
    }

    pub fn of_kind(&self, kind: &str) -> usize {
        self.kinds.iter().filter(|(key, _)| key.1 == kind).map(|(_, count)| count).sum()
    }

    pub fn total(&self) -> usize {
        self.kinds.values().sum()
    }

    /// An error where fewer than `count` were compared, or none of some verb, or no run granted just what it needs, or one step less:
    /// such a comparison says nothing.
    pub fn covering(self, count: usize) -> Result<Tally, String> {
        if self.total() < count {
            return Err(format!("{} of {count} compared", self.total()));
        }
        if let Some(verb) = Call::VERBS.iter().find(|verb| self.of_verb(verb) == 0) {
            return Err(format!("no {verb} among {count}"));
        }
        match [grant::AT, grant::BELOW].iter().find(|kind| self.of_kind(kind) == 0) {
            Some(kind) => Err(format!("no run {kind} among {count}")),
            None => Ok(self),
        }
    }

    /// An error where some caller made no run, or no run was made by a caller that the desk does not have.
    pub fn of_every_caller(self) -> Result<Tally, String> {
        match self.callers.iter().position(|&count| count == 0) {
            Some(caller) => Err(format!("no run of caller {caller}")),
            None => Ok(self),
        }
    }
}

/// A line for each verb, one for the grants at which the order of the ends shows, and one for the callers.
impl fmt::Display for Tally {
    fn fmt(&self, f: &mut fmt::Formatter) -> fmt::Result {
        for verb in Call::VERBS {
            write!(f, "{verb} {}:", self.of_verb(verb))?;
            for (&(_, kind, number), count) in self.kinds.iter().filter(|(key, _)| key.0 == verb) {
                match number {
                    0 => write!(f, " {kind} {count};")?,
                    _ => write!(f, " {kind} {number}: {count};")?,
                }
            }
            writeln!(f)?;
        }
        writeln!(f, "runs granted the steps needed: {}; one step less: {}", self.of_kind(grant::AT), self.of_kind(grant::BELOW))?;
        let own: Vec<String> = self.callers[..CALLERS].iter().map(usize::to_string).collect();
        writeln!(f, "runs by caller, 0 to 7: {}; above 7: {}", own.join(" "), self.callers[CALLERS])
    }
}

/// Prints what was compared, or why the comparison failed; the exit status of a program that compares.
pub fn report(what: &str, seed: u64, compared: Result<Tally, String>) -> ExitCode {
    match compared {
        Ok(tally) => {
            print!("seed {seed}: {} {what} compared, no difference\n{tally}", tally.total());
            ExitCode::SUCCESS
        }
        Err(why) => {
            println!("seed {seed}: {what} failed: {why}");
            ExitCode::FAILURE
        }
    }
}

#[cfg(test)]
mod tests {
    use super::*;

    /// One of each verb, both runs with grants at which the order of the ends shows.
    fn one_of_each() -> Tally {
        let mut tally = Tally::default();
        let mut add = |line, kind| tally.add(&Request::of(line).unwrap(), kind);
        add("check 1 | 7", ("refused", 5));
        add("run 1 9 | 6 0 0", ("ended", 1));
        add("kinds 9 0 | 6 0 0", ("ended", 2));
        add("part 1 | 7", ("no part", 0));
        tally
    }

    #[test]
    fn too_few_are_an_error() {
        assert!(one_of_each().covering(Call::VERBS.len()).is_ok());
        assert!(one_of_each().covering(Call::VERBS.len() + 1).is_err());
        assert!(Tally::default().covering(0).is_err());
    }

    #[test]
    fn a_grant_left_out_is_an_error() {
        for kind in [grant::AT, grant::BELOW] {
            let mut tally = one_of_each();
            for line in ["run 5 5 | 6 0 0", "kinds 5 5 | 6 0 0"] {
                tally.add(&Request::of(line).unwrap(), ("ended", 1));
            }
            assert_eq!(tally.of_kind(kind), 1);
            tally.kinds.retain(|key, _| key.1 != kind);
            assert!(tally.covering(2).is_err());
        }
    }

    #[test]
    fn a_caller_left_out_is_an_error() {
        let run = |caller| {
            let mut request = Request::of("run 1 9 | 6 0 0").unwrap();
            if let Call::Run { caller: of, .. } = &mut request.call {
                *of = caller;
            }
            request
        };
        let of = |callers: &[u32]| {
            let mut tally = Tally::default();
            callers.iter().for_each(|&caller| tally.add(&run(caller), ("ended", 1)));
            tally.of_every_caller()
        };
        assert!(of(&[0, 1, 2, 3, 4, 5, 6, 7, u32::MAX]).is_ok());
        assert!(of(&[0, 1, 2, 3, 4, 5, 6, 7]).is_err());
        assert!(of(&[0, 1, 2, 3, 4, 6, 7, 8]).is_err());
    }

    #[test]
    fn a_verb_left_out_is_an_error() {
        for verb in Call::VERBS {
            let mut tally = one_of_each();
            tally.kinds.retain(|key, _| key.0 != verb);
            assert!(tally.covering(2).is_err());
        }
    }
}
