//! The runner: a case, what it lends, the call, the comparison with the model, and the count of what was met.

pub mod calls;
pub mod command;
pub mod compare;
pub mod examples;
pub mod guards;
pub mod inputs;
pub mod lent;
pub mod met;
pub mod program;
pub mod told;
pub mod wrongs;
