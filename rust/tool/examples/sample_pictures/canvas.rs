//! A picture to draw on.

use super::font::dots;

pub type Colour = [u8; 3];

pub struct Canvas {
    width: usize,
    pixels: Vec<Colour>,
}

impl Canvas {
    pub fn new(width: usize, height: usize, ground: Colour) -> Canvas {
        Canvas { width, pixels: vec![ground; width * height] }
    }

    pub fn rectangle(&mut self, x: usize, y: usize, width: usize, height: usize, colour: Colour) {
        for row in y..y + height {
            self.pixels[row * self.width..][x..x + width].fill(colour);
        }
    }

    /// Letters with a column between them; `x` and `y` are the first one's upper left corner.
    pub fn text(&mut self, x: usize, y: usize, text: &str, colour: Colour) {
        self.large_text(x, y, 1, text, colour);
    }

    /// Letters whose pixels are squares with sides of `scale`.
    pub fn large_text(&mut self, x: usize, y: usize, scale: usize, text: &str, colour: Colour) {
        for (column, row) in dots(text) {
            self.rectangle(x + column * scale, y + row * scale, scale, scale, colour);
        }
    }

    pub fn ppm(&self) -> Vec<u8> {
        let mut bytes = format!("P6\n{} {}\n255\n", self.width, self.pixels.len() / self.width).into_bytes();
        bytes.extend(self.pixels.concat());
        bytes
    }
}
