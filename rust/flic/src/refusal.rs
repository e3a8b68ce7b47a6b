//! Refusals: what was wrong, where, and what to do about it.

use std::error::Error;
use std::fmt;

/// Why a call was refused, under the names and numbers of docs/REFUSALS.md; [`meaning`](Refusal::meaning) and
/// [`advice`](Refusal::advice) say in words what each is and what to do.
#[derive(Clone, Copy, Debug, PartialEq, Eq, Hash, PartialOrd, Ord)]
#[non_exhaustive]
#[repr(u32)]
pub enum Refusal {
    /// A picture or palette that was lent is too short.
    ShortSlice = 1,
    /// The width isn't 1 to 320, or the height not 1 to 200, or an FLI isn't 320 by 200; given by this crate too where
    /// two states that belong together differ in size.
    BadSize = 2,
    /// The output is too short.
    NoRoom = 3,
    /// The bytes end too soon, or a size runs past what encloses it.
    Cut = 4,
    /// Neither an FLC nor an FLI file, or not a frame of one, or an FLI where only an FLC is taken.
    WrongType = 5,
    /// A size is less than its own header.
    SmallSize = 6,
    /// A chunk ends before its data.
    BodyEnds = 7,
    /// A BRUN packet has count 0.
    ZeroCount = 8,
    /// A packet runs past the right edge.
    PastWidth = 9,
    /// A row lies below the picture.
    PastHeight = 10,
    /// A word of a delta chunk has no meaning there.
    BadWord = 11,
    /// A colour packet runs past entry 255.
    PastPalette = 12,
    /// A colour level is over 63.
    OverLevel = 13,
    /// The depth isn't 8, the frames aren't 1 to 4,000, the flags aren't 3 (in an FLI 0), or a delay is over 65,535
    /// jiffies.
    BadHeader = 14,
    /// Frames or the ring are missing.
    FewFrames = 15,
    /// The ring doesn't lead back to frame 1.
    BadRing = 16,
    /// What stands behind the reel isn't its trailer.
    BadTrailer = 17,
    /// A frame is added to a closed or full reel, or a reel is closed empty or twice.
    WrongTime = 18,
    /// More than one spare byte stands behind a chunk's data.
    SpareBytes = 19,
    /// An FLI holds a chunk of kind 7 or 18, which only an FLC may hold.
    NotInFli = 20,
}

use Refusal::*;

impl Refusal {
    /// Every refusal, in the order of the numbers.
    pub const ALL: [Refusal; 20] = [
        ShortSlice,
        BadSize,
        NoRoom,
        Cut,
        WrongType,
        SmallSize,
        BodyEnds,
        ZeroCount,
        PastWidth,
        PastHeight,
        BadWord,
        PastPalette,
        OverLevel,
        BadHeader,
        FewFrames,
        BadRing,
        BadTrailer,
        WrongTime,
        SpareBytes,
        NotInFli,
    ];

    /// The number by which the C boundary and the papers call it.
    pub fn number(self) -> u32 {
        self as u32
    }

    /// The refusal with this number.
    ///
    /// ```
    /// use flic::Refusal;
    /// assert_eq!(Refusal::with_number(16), Some(Refusal::BadRing));
    /// assert_eq!(Refusal::with_number(0), None);
    /// ```
    pub fn with_number(number: u32) -> Option<Refusal> {
        Refusal::ALL.into_iter().find(|refusal| refusal.number() == number)
    }

    /// What was found.
    pub fn meaning(self) -> &'static str {
        match self {
            ShortSlice => "a picture has fewer pixels than width times height, or a palette fewer than 768 bytes",
            BadSize => {
                "the width isn't 1 to 320, the height isn't 1 to 200, an FLI isn't 320 by 200, or two pictures differ in size"
            }
            NoRoom => "there is no room for what is to be written",
            Cut => "the bytes end too soon, or a size runs past what encloses it",
            WrongType => "this is no FLC or FLI file, or no frame of one, or an FLI where an FLC is asked for",
            SmallSize => "a size is less than its own header",
            BodyEnds => "a chunk ends before its data",
            ZeroCount => "a BRUN packet has count 0",
            PastWidth => "a packet runs past the right edge",
            PastHeight => "a row lies below the picture",
            BadWord => "a delta chunk holds a word that has no meaning there",
            PastPalette => "a colour packet runs past entry 255",
            OverLevel => "a colour level is over 63",
            BadHeader => {
                "the depth isn't 8, the frames aren't 1 to 4,000, the flags aren't those of a closed file, or a delay is over 65,535 jiffies"
            }
            FewFrames => "frames or the ring are missing",
            BadRing => "the ring doesn't lead back to frame 1",
            BadTrailer => "what stands behind the reel isn't its trailer",
            WrongTime => "a reel takes 1 to 4,000 frames, and is closed once",
            SpareBytes => "more than one spare byte stands behind a chunk's data",
            NotInFli => "an FLI holds a chunk of kind 7 or 18, which only an FLC may hold",
        }
    }

    /// What to do about it.
    pub fn advice(self) -> &'static str {
        match self {
            ShortSlice => "hand in width times height pixels, and 768 bytes of palette",
            BadSize => "check the size that the board is set to",
            NoRoom => "give more room, or make the file smaller",
            Cut | SmallSize | BodyEnds => "copy the file anew",
            WrongType => "check which file it is",
            ZeroCount | BadWord | PastPalette | OverLevel => {
                "copy the file anew; if it stays, the tool that wrote it is at fault"
            }
            PastWidth | PastHeight => "the frame is for a larger picture, or damaged: copy the file anew",
            BadHeader | FewFrames => "make the file anew",
            BadRing => "a board would show a wrong picture from the second lap on: make the file anew",
            BadTrailer => "write the trailer anew",
            WrongTime => "open a new reel",
            SpareBytes => "the tool that wrote the file left old bytes in it: make the file anew with another",
            NotInFli => "a board that takes FLI can't draw it: make the file anew",
        }
    }
}

impl fmt::Display for Refusal {
    fn fmt(&self, f: &mut fmt::Formatter<'_>) -> fmt::Result {
        write!(f, "{}; {}", self.meaning(), self.advice())
    }
}

/// A refused call: nothing was changed.
///
/// ```
/// let refused = flic::check_reel(&[0; 200]).unwrap_err();
/// let text = "refused 5 at offset 0: this is no FLC or FLI file, or no frame of one, or an FLI where an FLC is asked for; \
///             check which file it is";
/// assert_eq!(refused.to_string(), text);
/// ```
///
/// A program whose `main` gives it on with `?` prints the same words:
///
/// ```
/// let refused = flic::check_reel(&[0; 200]).unwrap_err();
/// assert_eq!(format!("{refused:?}"), refused.to_string());
/// ```
#[derive(Clone, Copy, PartialEq, Eq, Hash)]
pub struct Refused {
    /// What was wrong.
    pub refusal: Refusal,
    /// The offset, in the bytes handed in, of the chunk header at fault, or of where it should begin.
    pub place: u64,
}

impl fmt::Display for Refused {
    fn fmt(&self, f: &mut fmt::Formatter<'_>) -> fmt::Result {
        write!(f, "refused {} at offset {}: {}", self.refusal.number(), self.place, self.refusal)
    }
}

/// What a `main` that ends with this error prints: the same as for whoever displays it.
impl fmt::Debug for Refused {
    fn fmt(&self, f: &mut fmt::Formatter<'_>) -> fmt::Result {
        fmt::Display::fmt(self, f)
    }
}

impl Error for Refused {}

/// What a call that can be refused gives.
pub type Result<T> = std::result::Result<T, Refused>;

#[cfg(test)]
mod tests {
    use super::*;

    #[test]
    fn numbers_run_from_1_to_20_and_lead_back() {
        let numbers: Vec<u32> = Refusal::ALL.iter().map(|refusal| refusal.number()).collect();
        assert_eq!(numbers, (1..=20).collect::<Vec<u32>>());
        assert!(Refusal::ALL.iter().all(|refusal| Refusal::with_number(refusal.number()) == Some(*refusal)));
        assert_eq!((Refusal::with_number(0), Refusal::with_number(21)), (None, None));
    }

    #[test]
    fn names_are_those_of_the_document() {
        let document = include_str!("../../../docs/REFUSALS.md");
        for refusal in Refusal::ALL {
            let row = format!("| {} | {refusal:?} |", refusal.number());
            assert!(document.contains(&row), "docs/REFUSALS.md has no row that begins {row}");
        }
    }

    /// `BadRing` as `FLIC_BAD_RING`.
    fn name_in_c(refusal: Refusal) -> String {
        let mut name = "FLIC".to_string();
        for letter in format!("{refusal:?}").chars() {
            let gap = if letter.is_uppercase() { "_" } else { "" };
            name += &format!("{gap}{}", letter.to_ascii_uppercase());
        }
        name
    }

    #[test]
    fn the_header_for_c_has_the_same_numbers_and_words() {
        let header = include_str!("../../../include/flic.h");
        for refusal in Refusal::ALL {
            let (name, number) = (name_in_c(refusal), refusal.number());
            assert!(header.contains(&format!("\n    {name} = {number},\n")), "{name}");
            assert!(header.contains(&format!("\n    case {name}: return \"{}\";\n", refusal.meaning())), "{name}");
        }
        let counted = header.matches(": return \"").count();
        assert_eq!(counted, Refusal::ALL.len() + 2, "done, and numbers that no call gives");
    }

    #[test]
    fn a_refusal_says_number_place_and_what_to_do() {
        let refused = Refused { refusal: Refusal::BadTrailer, place: 7 };
        let text = "refused 17 at offset 7: what stands behind the reel isn't its trailer; write the trailer anew";
        assert_eq!(refused.to_string(), text);
    }
}
