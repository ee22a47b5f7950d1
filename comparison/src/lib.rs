//! The proved code beside the reference: what both are asked, their calls in one shape, and the count of what was compared.

pub mod grant;
pub mod program;
pub mod request;
pub mod side;
pub mod tally;
