//! The two formats of a file, and the units in which they count for how long a frame shows.

use crate::boundary;
use crate::refusal::Result;
use std::fmt;

/// The format of a frame or a reel; displayed as `FLC` or `FLI`.
#[derive(Clone, Copy, Debug, PartialEq, Eq, Hash)]
pub enum Format {
    /// Of Animator Pro: any [`Size`](crate::Size), a delay in milliseconds.
    Flc,
    /// Of the original Animator, for boards of 320 by 200: [`Size::FLI`](crate::Size::FLI) alone, a delay in jiffies,
    /// and no chunk of kind 7 or 18.
    Fli,
}

impl fmt::Display for Format {
    fn fmt(&self, f: &mut fmt::Formatter<'_>) -> fmt::Result {
        f.pad(match self {
            Format::Flc => "FLC",
            Format::Fli => "FLI",
        })
    }
}

/// A delay as an FLC stores it and a [`Player`](crate::Player) waits it; displayed as `250 ms`.
#[derive(Clone, Copy, Debug, PartialEq, Eq, Hash, PartialOrd, Ord)]
pub struct Milliseconds(pub u32);

/// A delay as an FLI stores it, in 1/70 seconds; displayed as `18 jiffies`.
#[derive(Clone, Copy, Debug, PartialEq, Eq, Hash, PartialOrd, Ord)]
pub struct Jiffies(pub u16);

impl Milliseconds {
    /// The delay in jiffies, 70 m / 1000 rounded up. Refused 14 where these are more than 65,535.
    ///
    /// ```
    /// use flic::{Jiffies, Milliseconds};
    /// assert_eq!(Milliseconds(100).in_jiffies()?, Jiffies(7));
    /// assert_eq!(Milliseconds(250).in_jiffies()?, Jiffies(18));
    /// assert_eq!(Milliseconds(1_000_000).in_jiffies().unwrap_err().refusal.number(), 14);
    /// # Ok::<(), flic::Refused>(())
    /// ```
    pub fn in_jiffies(self) -> Result<Jiffies> {
        // More than an FLI stores are refused.
        boundary::in_jiffies(self.0).map(|jiffies| Jiffies(jiffies as u16))
    }
}

impl Jiffies {
    /// The delay in milliseconds, 1000 j / 70 rounded down; [`Milliseconds::in_jiffies`] gives the same jiffies back.
    ///
    /// ```
    /// use flic::{Jiffies, Milliseconds};
    /// assert_eq!(Jiffies(18).in_milliseconds(), Milliseconds(257));
    /// assert_eq!(Jiffies(18).in_milliseconds().in_jiffies()?, Jiffies(18));
    /// # Ok::<(), flic::Refused>(())
    /// ```
    pub fn in_milliseconds(self) -> Milliseconds {
        let milliseconds = boundary::in_milliseconds(self.0.into());
        Milliseconds(milliseconds.expect("no number of jiffies that an FLI stores is refused"))
    }
}

impl fmt::Display for Milliseconds {
    fn fmt(&self, f: &mut fmt::Formatter<'_>) -> fmt::Result {
        write!(f, "{} ms", self.0)
    }
}

impl fmt::Display for Jiffies {
    fn fmt(&self, f: &mut fmt::Formatter<'_>) -> fmt::Result {
        write!(f, "{} {}", self.0, if self.0 == 1 { "jiffy" } else { "jiffies" })
    }
}

#[cfg(test)]
mod tests {
    use super::*;
    use crate::refusal::{Refusal, Refused};

    #[test]
    fn the_two_formulas() {
        for jiffies in 0..=u16::MAX {
            let milliseconds = Jiffies(jiffies).in_milliseconds();
            assert_eq!(u64::from(milliseconds.0), u64::from(jiffies) * 1000 / 70);
            assert_eq!(milliseconds.in_jiffies(), Ok(Jiffies(jiffies)));
        }
        for milliseconds in (0..=2_000).chain(934_000..=936_214) {
            let jiffies = Milliseconds(milliseconds).in_jiffies().expect("an FLI stores as many");
            assert_eq!(u64::from(jiffies.0), (u64::from(milliseconds) * 70).div_ceil(1000), "{milliseconds}");
        }
    }

    #[test]
    fn a_delay_that_no_fli_stores_is_refused() {
        let refused = Err(Refused { refusal: Refusal::BadHeader, place: 0 });
        assert_eq!(Milliseconds(936_214).in_jiffies(), Ok(Jiffies(u16::MAX)));
        assert_eq!((Milliseconds(936_215).in_jiffies(), Milliseconds(u32::MAX).in_jiffies()), (refused, refused));
    }

    #[test]
    fn in_words() {
        assert_eq!([Format::Flc, Format::Fli].map(|format| format.to_string()), ["FLC", "FLI"]);
        assert_eq!((Milliseconds(1).to_string(), Milliseconds(70).to_string()), ("1 ms".into(), "70 ms".into()));
        assert_eq!((Jiffies(1).to_string(), Jiffies(5).to_string()), ("1 jiffy".into(), "5 jiffies".into()));
    }
}
