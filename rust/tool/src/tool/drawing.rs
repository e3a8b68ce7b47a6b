//! Drawing on a picture: areas, other pictures and letters.

use super::font::dots;
use super::image::Image;
use flic::State;

pub type Colour = [u8; 3];

impl Image {
    /// A picture of one colour.
    pub fn filled(width: usize, height: usize, colour: Colour) -> Image {
        Image { width, height, pixels: vec![colour; width * height] }
    }

    /// What a state shows.
    pub fn of(state: &State) -> Image {
        let (width, height) = (state.size().width().into(), state.size().height().into());
        let pixels = state.picture.pixels().iter().map(|pixel| state.palette.colour(*pixel)).collect();
        Image { width, height, pixels }
    }

    /// Fills an area, which lies within the picture.
    pub fn fill(&mut self, x: usize, y: usize, width: usize, height: usize, colour: Colour) {
        for row in y..y + height {
            self.pixels[row * self.width + x..][..width].fill(colour);
        }
    }

    /// Puts another picture in, which has room there.
    pub fn put(&mut self, x: usize, y: usize, other: &Image) {
        for (row, pixels) in other.pixels.chunks(other.width).enumerate() {
            self.pixels[(y + row) * self.width + x..][..other.width].copy_from_slice(pixels);
        }
    }

    /// Writes a line of capitals and digits, for which there is room; `x` and `y` are its upper left corner.
    pub fn write(&mut self, x: usize, y: usize, text: &str, colour: Colour) {
        for (column, row) in dots(text) {
            self.pixels[(y + row) * self.width + x + column] = colour;
        }
    }
}

#[cfg(test)]
mod tests {
    use super::*;

    #[test]
    fn areas_and_pictures_lie_where_they_are_put() {
        let mut image = Image::filled(4, 3, [0; 3]);
        image.fill(1, 1, 2, 2, [1; 3]);
        image.put(3, 0, &Image::filled(1, 2, [2; 3]));
        let levels: Vec<u8> = image.pixels.iter().map(|pixel| pixel[0]).collect();
        assert_eq!(levels, [0, 0, 0, 2, 0, 1, 1, 2, 0, 1, 1, 0]);
    }

    #[test]
    fn letters_are_drawn() {
        let mut image = Image::filled(12, 7, [0; 3]);
        image.write(0, 0, "1I", [9; 3]);
        let rows: Vec<String> = image
            .pixels
            .chunks(12)
            .map(|row| row.iter().map(|pixel| if pixel[0] == 9 { '#' } else { '.' }).collect())
            .collect();
        assert_eq!((rows[0].as_str(), rows[1].as_str()), ("..#....###..", ".##.....#..."));
    }
}
