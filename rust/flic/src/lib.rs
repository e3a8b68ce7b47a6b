//! Reads, writes, checks and builds FLC animations (Autodesk Animator Pro), and FLI animations (the original Animator),
//! with a codec whose every function is proved.
//!
//! A [`Reel`] takes pictures and gives a file; a [`CheckedReel`] is a file that was checked, and gives its frames; a
//! [`Player`] plays it after a clock, and [`replay`] says what recorded readings of that clock showed. One frame is
//! read, written and rewritten by [`read_frame`], [`write_frame`] and [`rewrite_frame`]. A [`TileMap`] says which tiles a
//! panel has to redraw from one picture to the next. What can't be done is [`Refused`], with its reason and place. No
//! byte of a file is interpreted here: what a header says and where frames lie, [`Header::read`] and [`next_frame`] ask
//! the codec.
//!
//! A file's [`Format`] is told by its header; who builds one opens it with [`Reel::open`] or [`Reel::open_fli`], and who
//! reads or writes one frame says of which format it is. An FLC counts in [`Milliseconds`], an FLI in [`Jiffies`].
//!
//! The codec is `libcapi.a`, which `scripts/library` makes; the environment's `FLIC_LIB_DIR` names the directory that
//! holds it, if it isn't `target/staticlib` of the repository.
//!
//! ```
//! use flic::{CheckedReel, Milliseconds, Reel, Size, State};
//!
//! let size = Size::new(4, 2)?;
//! let mut day = State::blank(size);
//! day.palette.set_colour(1, [255, 255, 255]);
//! day.picture.pixels_mut().fill(1);
//! let mut night = day.clone();
//! night.palette.set_colour(1, [0, 0, 80]);
//!
//! let mut reel = Reel::open(size, Milliseconds(500))?;
//! reel.add(&day)?;
//! reel.add(&night)?;
//! let file = reel.close()?;
//!
//! let reel = CheckedReel::new(&file)?;
//! let shown: Vec<State> = reel.frames().map(|frame| frame.state).collect();
//! assert_eq!(shown, [day.clone(), night, day]);
//! # Ok::<(), flic::Refused>(())
//! ```

#![forbid(unsafe_code)]
#![deny(missing_docs)]

mod boundary;
mod checked;
mod chunk;
mod format;
mod frame;
mod header;
mod listing;
mod place;
mod player;
mod reel;
mod refusal;
mod row;
mod state;
mod tiles;
mod trailer;

pub use checked::{check_reel, CheckedReel, Frame, Laps, Shown};
pub use chunk::{next_frame, Chunk};
pub use format::{Format, Jiffies, Milliseconds};
pub use frame::{read_frame, rewrite_frame, write_frame, Rewritten};
pub use header::{Header, FILE_HEADER};
pub use listing::{list, LISTED_MOST};
pub use place::{part_of, Part};
pub use player::{replay, Event, Player};
pub use reel::{Reel, MOST_FRAMES};
pub use refusal::{Refusal, Refused, Result};
pub use row::{search_row, RowCost};
pub use state::{Palette, Picture, Size, State, PALETTE};
pub use tiles::{TileMap, TileRow, TILE};
pub use trailer::{check_trailer, write_trailer, TRAILER_MOST};

#[cfg(test)]
mod tests {
    use super::*;

    #[test]
    fn the_limits_are_those_of_the_header_for_c() {
        let header = include_str!("../../../include/flic.h");
        let largest = Size::new(320, 200).expect("a size that is taken");
        let limits = [
            ("FLIC_WIDTH_MOST", largest.width().into()),
            ("FLIC_HEIGHT_MOST", largest.height().into()),
            ("FLIC_PIXELS_MOST", largest.pixels()),
            ("FLIC_FLI_WIDTH", Size::FLI.width().into()),
            ("FLIC_FLI_HEIGHT", Size::FLI.height().into()),
            ("FLIC_JIFFIES_MOST", u16::MAX.into()),
            ("FLIC_FRAMES_MOST", MOST_FRAMES),
            ("FLIC_PALETTE", PALETTE),
            ("FLIC_FILE_HEADER", FILE_HEADER),
            ("FLIC_TRAILER_MOST", TRAILER_MOST),
            ("FLIC_LISTED_MOST", LISTED_MOST),
        ];
        for (name, limit) in limits {
            assert!(header.contains(&format!("\n#define {name} {limit}\n")), "{name} {limit}");
        }
        assert!(Size::new(largest.width() + 1, 1).is_err() && Size::new(1, largest.height() + 1).is_err());
    }

    #[test]
    fn the_version_is_that_of_the_header_for_c() {
        let header = include_str!("../../../include/flic.h");
        assert!(header.contains(concat!("\n#define FLIC_VERSION \"", env!("CARGO_PKG_VERSION"), "\"\n")));
        let parts: Vec<u32> = env!("CARGO_PKG_VERSION").split('.').map(|part| part.parse().unwrap()).collect();
        let number = 10_000 * parts[0] + 100 * parts[1] + parts[2];
        assert!(header.contains(&format!("\n#define FLIC_VERSION_NUMBER {number}\n")));
    }
}
