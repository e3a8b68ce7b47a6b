//! The two formats and their delays: document 02's Req 06. "These take FLI only: magic AF11, flags 0, delay in jiffies of
//! 1/70 second".

use super::{number, require, Document, Refusal};
use flic_boundary::{FLC, FLI};

/// Which of the two a frame or a reel is of.
#[derive(Clone, Copy, Debug, PartialEq, Eq, PartialOrd, Ord)]
pub enum Format {
    Flc,
    Fli,
}

impl Format {
    pub const BOTH: [Format; 2] = [Format::Flc, Format::Fli];

    /// The number that an answer tells it by.
    pub fn number(self) -> u32 {
        match self {
            Format::Flc => FLC,
            Format::Fli => FLI,
        }
    }

    /// The file magic, as it is written.
    pub fn magic(self) -> u16 {
        match self {
            Format::Flc => 0xAF12,
            Format::Fli => 0xAF11,
        }
    }
}

/// A delay in units of 1/70 second.
#[derive(Clone, Copy, Debug, PartialEq, Eq)]
pub struct Jiffies(pub u64);

/// A delay in units of 1/1000 second.
#[derive(Clone, Copy, Debug, PartialEq, Eq)]
pub struct Milliseconds(pub u64);

/// What an FLI's header holds at most.
pub const MAX_JIFFIES: u64 = 65_535;

impl Formats for Document {}

pub trait Formats {
    /// The format that a call is told, "0 for FLC and any other for FLI".
    fn told(&self, number: u32) -> Format {
        match number {
            FLC => Format::Flc,
            _ => Format::Fli,
        }
    }

    /// "The whole-reel check and a player's start go by the magic".
    fn of_magic(&self, magic: u16) -> Option<Format> {
        Format::BOTH.into_iter().find(|format| format.magic() == magic)
    }

    /// "Jiffies j become 1000j/70 rounded down".
    fn milliseconds(&self, Jiffies(j): Jiffies) -> Milliseconds {
        Milliseconds(1_000 * j / 70)
    }

    /// "milliseconds m become 70m/1000 rounded up".
    fn jiffies(&self, Milliseconds(m): Milliseconds) -> Jiffies {
        Jiffies((70 * m).div_ceil(1_000))
    }

    /// "jiffies over 65,535 is 14".
    fn fits(&self, Jiffies(j): Jiffies) -> Result<(), Refusal> {
        require(j <= MAX_JIFFIES, number::BAD_FILE_HEADER, 0)
    }

    /// The first formula, of jiffies that a header can hold.
    fn in_milliseconds(&self, jiffies: Jiffies) -> Result<Milliseconds, Refusal> {
        self.fits(jiffies)?;
        Ok(self.milliseconds(jiffies))
    }

    /// The second formula, where it gives jiffies that a header can hold.
    fn in_jiffies(&self, milliseconds: Milliseconds) -> Result<Jiffies, Refusal> {
        let jiffies = self.jiffies(milliseconds);
        self.fits(jiffies)?;
        Ok(jiffies)
    }
}

#[cfg(test)]
mod tests {
    use super::*;

    #[test]
    fn jiffies_to_milliseconds_and_back_is_unchanged() {
        for j in 0..=MAX_JIFFIES {
            let milliseconds = Document.in_milliseconds(Jiffies(j)).expect("a header holds these jiffies");
            assert_eq!(Document.in_jiffies(milliseconds), Ok(Jiffies(j)));
        }
    }

    #[test]
    fn delays_of_a_second_and_around_the_longest() {
        let milliseconds = |j| Document.in_milliseconds(Jiffies(j)).map(|Milliseconds(m)| m).map_err(|r| r.number);
        assert_eq!([0, 1, 5, 7, 70, 65_535].map(milliseconds), [0, 14, 71, 100, 1_000, 936_214].map(Ok));
        assert_eq!([65_536, u64::from(u32::MAX)].map(milliseconds), [Err(14); 2]);
        let jiffies = |m| Document.in_jiffies(Milliseconds(m)).map(|Jiffies(j)| j).map_err(|r| r.number);
        assert_eq!([0, 1, 14, 15, 28, 29, 1_000, 1_001].map(jiffies), [0, 1, 1, 2, 2, 3, 70, 71].map(Ok));
        assert_eq!([936_214, 936_215, u64::from(u32::MAX)].map(jiffies), [Ok(65_535), Err(14), Err(14)]);
    }

    #[test]
    fn every_number_but_0_is_fli() {
        assert_eq!(
            [0, 1, 2, 256, u32::MAX].map(|number| Document.told(number) == Format::Fli),
            [false, true, true, true, true]
        );
        assert_eq!(
            [0xAF11, 0xAF12, 0xAF13, 0x11AF].map(|magic| Document.of_magic(magic)),
            [Some(Format::Fli), Some(Format::Flc), None, None]
        );
    }
}
