//! Chooses palette entries for a picture's colours so that little changes against what shows.

use super::image::Image;
use flic::{write_frame, Format, State};
use std::cmp::Reverse;
use std::collections::BTreeMap;

const ENTRIES: usize = 256;
/// What it is worth, in pixels that stay as they are, that an entry keeps its colour.
const KEPT_ENTRY: u32 = 4;
/// More than any number of pixels.
const ALWAYS: u32 = 1 << 24;

/// A state that shows the picture in a reel of this format, or how many colours it has if there are more than entries.
///
/// Colours stay at the entry they have, unless the frame gets shorter by changing entries under pixels that stay, as
/// in a fade.
pub fn state_showing(image: &Image, format: Format, shown: &State) -> Result<State, usize> {
    let picture = Coloured::of(image);
    if picture.colours.len() > ENTRIES {
        return Err(picture.colours.len());
    }
    let (kept, moved) = (picture.state(shown, ALWAYS), picture.state(shown, KEPT_ENTRY));
    let length = |state: &State| write_frame(format, shown, state).map_or(usize::MAX, |frame| frame.len());
    Ok(if kept != moved && length(&moved) < length(&kept) { moved } else { kept })
}

/// A picture as colours, in the order in which they appear, and the number of each pixel's colour.
struct Coloured {
    colours: Vec<[u8; 3]>,
    pixels: Vec<usize>,
}

impl Coloured {
    fn of(image: &Image) -> Coloured {
        let mut numbers = BTreeMap::new();
        let mut colours = Vec::new();
        let number = |colour: &[u8; 3]| {
            *numbers.entry(*colour).or_insert_with(|| {
                colours.push(*colour);
                colours.len() - 1
            })
        };
        let pixels = image.pixels.iter().map(number).collect();
        Coloured { colours, pixels }
    }

    /// The state with each colour at its entry; an entry that keeps its colour is worth `kept` pixels.
    fn state(&self, shown: &State, kept: u32) -> State {
        let entries = self.entries(shown, kept);
        let mut state = shown.clone();
        for (colour, entry) in self.colours.iter().zip(&entries) {
            state.palette.set_colour(*entry, *colour);
        }
        for (pixel, number) in state.picture.pixels_mut().iter_mut().zip(&self.pixels) {
            *pixel = entries[*number];
        }
        state
    }

    /// An entry for each colour: the pairs of most worth first, then the lowest that are free.
    fn entries(&self, shown: &State, kept: u32) -> Vec<u8> {
        let mut chosen: Vec<Option<u8>> = vec![None; self.colours.len()];
        let mut is_taken = [false; ENTRIES];
        for (_, number, entry) in self.pairs(shown, kept) {
            if chosen[number].is_none() && !is_taken[usize::from(entry)] {
                chosen[number] = Some(entry);
                is_taken[usize::from(entry)] = true;
            }
        }
        let mut free = (0..=u8::MAX).filter(|entry| !is_taken[usize::from(*entry)]);
        let entry = |entry: Option<u8>| entry.or_else(|| free.next()).expect("there are no more colours than entries");
        chosen.into_iter().map(entry).collect()
    }

    /// Each colour with each entry that it has, or whose pixels it takes over: the most worth first, then in order.
    fn pairs(&self, shown: &State, kept: u32) -> Vec<(Reverse<u32>, usize, u8)> {
        let mut worth = vec![[0; ENTRIES]; self.colours.len()];
        for (number, entry) in self.pixels.iter().zip(shown.picture.pixels()) {
            worth[*number][usize::from(*entry)] += 1;
        }
        let mut pairs = Vec::new();
        for (number, colour) in self.colours.iter().enumerate() {
            for entry in 0..=u8::MAX {
                let has_colour = shown.palette.colour(entry) == *colour;
                let worth = worth[number][usize::from(entry)] + if has_colour { kept } else { 0 };
                if worth > 0 {
                    pairs.push((Reverse(worth), number, entry));
                }
            }
        }
        pairs.sort_unstable();
        pairs
    }
}

#[cfg(test)]
mod tests {
    use super::*;

    const BLACK: [u8; 3] = [0; 3];
    const RED: [u8; 3] = [200, 0, 0];
    const GREEN: [u8; 3] = [0, 200, 0];
    const BLUE: [u8; 3] = [0, 0, 200];

    fn image(pixels: &[[u8; 3]]) -> Image {
        Image { width: pixels.len(), height: 1, pixels: pixels.to_vec() }
    }

    fn blank(image: &Image) -> State {
        State::blank(image.size().unwrap())
    }

    #[test]
    fn colours_keep_their_entries() {
        let first = image(&[BLACK, RED, GREEN, GREEN]);
        let shown = state_showing(&first, Format::Flc, &blank(&first)).unwrap();
        assert_eq!(shown.picture.pixels(), [0, 1, 2, 2]);
        let next = state_showing(&image(&[GREEN, RED, GREEN, BLUE]), Format::Flc, &shown).unwrap();
        assert_eq!(next.picture.pixels()[..3], [2, 1, 2]);
        assert_eq!(next.rgb(), [GREEN, RED, GREEN, BLUE].concat());
    }

    #[test]
    fn colours_that_trade_places_in_part_stay_where_that_is_shorter() {
        let first = image(&[vec![RED; 31], vec![GREEN; 65]].concat());
        let shown = state_showing(&first, Format::Flc, &blank(&first)).unwrap();
        let second = image(&[vec![RED; 30], vec![GREEN], vec![RED; 35], vec![GREEN; 30]].concat());
        let next = state_showing(&second, Format::Flc, &shown).unwrap();
        assert_eq!((&next.palette, next.rgb()), (&shown.palette, second.pixels.concat()));
    }

    #[test]
    fn a_fade_changes_the_palette_alone() {
        let levels = |level: u8| image(&std::array::from_fn::<_, 64, _>(|at| [level + 16 * (at as u8 % 8); 3]));
        let first = levels(100);
        let mut shown = state_showing(&first, Format::Flc, &blank(&first)).unwrap();
        for level in (4..100).rev().step_by(16) {
            let next = state_showing(&levels(level), Format::Flc, &shown).unwrap();
            assert_eq!((&next.picture, next.rgb()), (&shown.picture, levels(level).pixels.concat()));
            shown = next;
        }
    }

    #[test]
    fn levels_that_move_on_to_the_next_entry_still_leave_the_pixels() {
        let levels = |level: u8| image(&std::array::from_fn::<_, 96, _>(|at| [level + 16 * ((at * at) as u8 % 5); 3]));
        let first = levels(64);
        let shown = state_showing(&first, Format::Flc, &blank(&first)).unwrap();
        let next = state_showing(&levels(48), Format::Flc, &shown).unwrap();
        assert_eq!((&next.picture, next.rgb()), (&shown.picture, levels(48).pixels.concat()));
    }

    #[test]
    fn all_entries_can_be_used_and_no_more() {
        let colours = |count: usize| image(&(0..count).map(|at| [at as u8, (at >> 8) as u8, 7]).collect::<Vec<_>>());
        let full = colours(256);
        let shown = state_showing(&full, Format::Flc, &blank(&full)).unwrap();
        assert_eq!(shown.rgb(), full.pixels.concat());
        let other = image(&full.pixels.iter().rev().map(|colour| [colour[0], 9, 9]).collect::<Vec<_>>());
        assert_eq!(state_showing(&other, Format::Flc, &shown).unwrap().rgb(), other.pixels.concat());
        let over = colours(257);
        assert_eq!(state_showing(&over, Format::Flc, &blank(&over)), Err(257));
    }

    #[test]
    fn each_format_has_its_own_shortest_frame() {
        // Five pixels get another colour, and one elsewhere keeps the one that they had.
        let picture = |colour: [u8; 3]| {
            let mut pixels = vec![[0; 3]; 64_000];
            pixels[960..965].fill(colour);
            pixels[3_200] = [5; 3];
            Image { width: 320, height: 200, pixels }
        };
        let shown = state_showing(&picture([5; 3]), Format::Flc, &blank(&picture([5; 3]))).unwrap();
        let [flc, fli] =
            [Format::Flc, Format::Fli].map(|format| state_showing(&picture([9; 3]), format, &shown).unwrap());
        let length = |format, state| write_frame(format, &shown, state).unwrap().len();
        assert!(length(Format::Flc, &flc) < length(Format::Flc, &fli));
        assert!(length(Format::Fli, &fli) <= length(Format::Fli, &flc));
    }
}
