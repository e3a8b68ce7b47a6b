//! How a command ends that couldn't do what was asked.

/// Why a command ends.
#[derive(Debug)]
pub enum Failure {
    /// The command line is wrong.
    Usage(String),
    /// Something else is.
    Wrong(String),
    /// What is wrong has been said.
    Said,
}

impl Failure {
    pub fn status(&self) -> u8 {
        match self {
            Failure::Usage(_) => 2,
            Failure::Wrong(_) | Failure::Said => 1,
        }
    }
}

pub type Outcome<T = ()> = Result<T, Failure>;

/// A failure with its words.
pub fn wrong<T>(words: String) -> Outcome<T> {
    Err(Failure::Wrong(words))
}

/// A wrong command line, in words.
pub fn misused<T>(words: String) -> Outcome<T> {
    Err(Failure::Usage(words))
}
