//! A picture as characters of a terminal: each is an upper half block, whose two colours are two pixels, one above the
//! other.

use super::terminal::Measures;
use flic::{Size, State};

type Colour = [u8; 3];

/// One character.
#[derive(Clone, Copy, Debug, PartialEq, Eq)]
struct Cell {
    upper: Colour,
    /// None below the last row of a picture with an odd number of them.
    lower: Option<Colour>,
}

/// A picture that fits a terminal.
#[derive(Clone, Debug, PartialEq, Eq)]
pub struct Cells {
    columns: usize,
    cells: Vec<Cell>,
}

impl Cells {
    /// What a state shows, as it is where there is room, else scaled down.
    pub fn of(state: &State, room: Measures) -> Cells {
        let (columns, height) = fitted(state.size(), room);
        let pixels = scaled(state, columns, height);
        let rows = pixels.chunks(2 * columns).map(|pair| pair.split_at(columns));
        let cells = rows.flat_map(|(upper, lower)| {
            upper.iter().enumerate().map(|(at, upper)| Cell { upper: *upper, lower: lower.get(at).copied() })
        });
        Cells { columns, cells: cells.collect() }
    }

    pub fn rows(&self) -> usize {
        self.cells.len() / self.columns
    }

    /// What a terminal is sent that shows the cells before, in the same place, so that it shows these; before is none
    /// where the terminal shows nothing.
    pub fn text(&self, before: Option<&Cells>) -> String {
        let before = before.filter(|before| before.columns == self.columns && before.cells.len() == self.cells.len());
        let mut text = String::new();
        let (mut cursor, mut colours) = (None, None);
        for (at, cell) in self.cells.iter().enumerate() {
            if before.is_some_and(|before| before.cells[at] == *cell) {
                continue;
            }
            let (row, column) = (at / self.columns, at % self.columns);
            // The cursor doesn't go on to the next row by itself.
            if cursor != Some(at) || column == 0 {
                text += &format!("\x1b[{};{}H", row + 1, column + 1);
            }
            if colours != Some(*cell) {
                text += &cell.colours();
            }
            text.push('▀');
            (cursor, colours) = (Some(at + 1), Some(*cell));
        }
        if !text.is_empty() {
            text += "\x1b[0m";
        }
        text
    }
}

impl Cell {
    fn colours(&self) -> String {
        let [red, green, blue] = self.upper;
        let lower = match self.lower {
            Some([red, green, blue]) => format!("48;2;{red};{green};{blue}"),
            None => "49".to_string(),
        };
        format!("\x1b[38;2;{red};{green};{blue};{lower}m")
    }
}

/// The width and height in pixels, of the same proportions and no more than the picture's, for which there is room.
fn fitted(size: Size, room: Measures) -> (usize, usize) {
    let (width, height) = (usize::from(size.width()), usize::from(size.height()));
    let (most_wide, most_high) = (room.columns, 2 * room.rows);
    if width <= most_wide && height <= most_high {
        (width, height)
    } else if width * most_high > height * most_wide {
        (most_wide, (height * most_wide / width).max(1))
    } else {
        ((width * most_high / height).max(1), most_high)
    }
}

/// The pixels of a smaller picture, each the mean of those that it stands for.
fn scaled(state: &State, columns: usize, rows: usize) -> Vec<Colour> {
    let (width, height) = (usize::from(state.size().width()), usize::from(state.size().height()));
    let pixels = state.picture.pixels();
    let mean = |row: usize, column: usize| {
        let (mut sums, mut count) = ([0; 3], 0);
        for y in row * height / rows..(row + 1) * height / rows {
            for x in column * width / columns..(column + 1) * width / columns {
                let colour = state.palette.colour(pixels[y * width + x]);
                sums = std::array::from_fn(|at| sums[at] + usize::from(colour[at]));
                count += 1;
            }
        }
        sums.map(|sum| ((sum + count / 2) / count) as u8)
    };
    (0..rows).flat_map(|row| (0..columns).map(move |column| mean(row, column))).collect()
}

#[cfg(test)]
mod tests {
    use super::*;

    const ROOM: Measures = Measures { columns: 80, rows: 24 };

    /// A state whose pixels have the colours of their own numbers.
    fn state(width: u16, height: u16, pixels: &[u8]) -> State {
        let mut state = State::blank(Size::new(width, height).unwrap());
        state.picture.pixels_mut().copy_from_slice(pixels);
        (0..=255).for_each(|entry| state.palette.set_colour(entry, [entry, 0, 255 - entry]));
        state
    }

    fn fits(width: u16, height: u16, columns: usize, rows: usize) -> (usize, usize) {
        fitted(Size::new(width, height).unwrap(), Measures { columns, rows })
    }

    #[test]
    fn two_pixels_a_character() {
        let cells = Cells::of(&state(2, 3, &[1, 2, 3, 4, 5, 6]), ROOM);
        assert_eq!(cells.rows(), 2);
        let text = "\x1b[1;1H\x1b[38;2;1;0;254;48;2;3;0;252m▀\x1b[38;2;2;0;253;48;2;4;0;251m▀\
                    \x1b[2;1H\x1b[38;2;5;0;250;49m▀\x1b[38;2;6;0;249;49m▀\x1b[0m";
        assert_eq!(cells.text(None), text);
    }

    #[test]
    fn colours_are_sent_where_they_change() {
        let text = Cells::of(&state(3, 4, &[7; 12]), ROOM).text(None);
        assert_eq!(text, "\x1b[1;1H\x1b[38;2;7;0;248;48;2;7;0;248m▀▀▀\x1b[2;1H▀▀▀\x1b[0m");
    }

    #[test]
    fn only_what_changed_is_sent() {
        let (before, mut pixels) = (Cells::of(&state(4, 4, &[7; 16]), ROOM), [7; 16]);
        assert_eq!(before.text(Some(&before)), "");
        pixels[6] = 9;
        pixels[15] = 9;
        let text = Cells::of(&state(4, 4, &pixels), ROOM).text(Some(&before));
        assert_eq!(text, "\x1b[1;3H\x1b[38;2;7;0;248;48;2;9;0;246m▀\x1b[2;4H▀\x1b[0m");
    }

    #[test]
    fn another_size_is_sent_whole() {
        let (wide, high) = (Cells::of(&state(4, 2, &[7; 8]), ROOM), Cells::of(&state(2, 4, &[7; 8]), ROOM));
        assert_eq!(high.text(Some(&wide)), high.text(None));
        assert_ne!(high.text(None), wide.text(None));
    }

    #[test]
    fn a_picture_keeps_its_proportions() {
        assert_eq!((fits(160, 64, 160, 32), fits(160, 64, 500, 500)), ((160, 64), (160, 64)));
        assert_eq!((fits(160, 64, 80, 32), fits(160, 64, 160, 16)), ((80, 32), (80, 32)));
        assert_eq!((fits(160, 64, 159, 32), fits(160, 64, 160, 31)), ((159, 63), (155, 62)));
        assert_eq!((fits(320, 1, 10, 10), fits(1, 200, 10, 10), fits(320, 200, 1, 1)), ((10, 1), (1, 20), (1, 1)));
    }

    #[test]
    fn a_pixel_that_stands_for_several_has_their_mean() {
        let pixels = [10, 20, 50, 50, 30, 41, 50, 51];
        let cells = Cells::of(&state(4, 2, &pixels), Measures { columns: 2, rows: 1 });
        assert_eq!(cells.text(None), "\x1b[1;1H\x1b[38;2;25;0;230;49m▀\x1b[38;2;50;0;205;49m▀\x1b[0m");
        let cells = Cells::of(&state(3, 1, &[0, 100, 200]), Measures { columns: 2, rows: 1 });
        assert_eq!(cells.text(None), "\x1b[1;1H\x1b[38;2;0;0;255;49m▀\x1b[38;2;150;0;105;49m▀\x1b[0m");
    }

    #[test]
    fn every_picture_fits_every_terminal() {
        for (width, height) in [(1, 1), (320, 200), (319, 199), (1, 200), (320, 1), (37, 21)] {
            let state = State::blank(Size::new(width, height).unwrap());
            for (columns, rows) in [(1, 1), (2, 1), (80, 24), (33, 7), (7, 33), (320, 100), (500, 500)] {
                let cells = Cells::of(&state, Measures { columns, rows });
                assert!(cells.columns <= columns && (1..=rows).contains(&cells.rows()), "{width} {height} {columns}");
            }
        }
    }
}
