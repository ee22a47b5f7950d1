//! The desk, from which the steps of runs are taken, and its callers (document 02, 2.9).

use crate::{Reason, Refusal};
use std::fmt;

/// How many callers the desk has.
pub const CALLERS: usize = 8;

/// One of the callers of the desk, 0 to 7: a number above is refused, by 21.
///
/// ```
/// use feguavy::{Caller, Reason};
/// assert_eq!(Caller::try_from(7).unwrap().number(), 7);
/// assert_eq!(Caller::try_from(8).unwrap_err().reason, Reason::CallerNotAllowed);
/// assert_eq!(Caller::ALL[0], Caller::FIRST);
/// ```
#[derive(Clone, Copy, Debug, PartialEq, Eq, PartialOrd, Ord, Hash)]
pub struct Caller(u8);

impl Caller {
    /// Caller 0.
    pub const FIRST: Caller = Caller(0);

    /// Every caller, in the order of the numbers.
    pub const ALL: [Caller; CALLERS] = [Caller(0), Caller(1), Caller(2), Caller(3), Caller(4), Caller(5), Caller(6), Caller(7)];

    /// Its number.
    pub fn number(self) -> u32 {
        self.0.into()
    }
}

impl TryFrom<u32> for Caller {
    type Error = Refusal;

    fn try_from(number: u32) -> Result<Caller, Refusal> {
        let found = Caller::ALL.into_iter().find(|caller| caller.number() == number);
        found.ok_or(Refusal { reason: Reason::CallerNotAllowed, place: 0 })
    }
}

impl fmt::Display for Caller {
    fn fmt(&self, f: &mut fmt::Formatter) -> fmt::Result {
        write!(f, "caller {}", self.0)
    }
}

/// An allowance of steps for each caller. A run takes its steps from the allowance of its caller, and leaves the other seven.
///
/// ```
/// use feguavy::{Caller, Desk};
/// let desk = Desk::alone(1000);
/// assert_eq!(desk.allowances, [1000, 0, 0, 0, 0, 0, 0, 0]);
/// assert_eq!(desk.allowance_of(Caller::FIRST), 1000);
/// ```
#[derive(Clone, Copy, Debug, PartialEq, Eq, Hash)]
#[repr(C)]
pub struct Desk {
    /// The allowances of callers 0 to 7.
    pub allowances: [u32; CALLERS],
}

impl Desk {
    /// The desk of caller 0 alone: an allowance for it, and none for the others.
    pub const fn alone(allowance: u32) -> Desk {
        Desk { allowances: [allowance, 0, 0, 0, 0, 0, 0, 0] }
    }

    /// What is left to a caller.
    pub fn allowance_of(&self, caller: Caller) -> u32 {
        self.allowances[usize::from(caller.0)]
    }
}
