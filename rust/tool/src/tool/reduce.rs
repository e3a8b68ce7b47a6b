//! Fewer colours for pictures that have too many: a palette by median cut, and the nearest of its colours for each pixel.

use super::image::Image;
use std::collections::HashMap;

type Colour = [u8; 3];

/// Thresholds for squares of 8 by 8 pixels, each of 0 to 63 once, that spread evenly (Bayer's).
const SQUARE: usize = 8;

/// How often each colour is met.
#[derive(Default)]
pub struct Counts {
    counts: HashMap<Colour, u64>,
}

impl Counts {
    pub fn add(&mut self, image: &Image) {
        for pixel in &image.pixels {
            *self.counts.entry(*pixel).or_default() += 1;
        }
    }

    /// At most so many colours that stand for all that were met: these themselves, where they are no more.
    ///
    /// Median cut: the colours are one box; a box is cut in two, with as many pixels in either half, across its longest
    /// side, as long as there are too few boxes; the mean of each box stands for it.
    pub fn palette(self, most: usize) -> Vec<Colour> {
        let mut colours: Vec<(Colour, u64)> = self.counts.into_iter().collect();
        colours.sort_unstable();
        if colours.len() <= most {
            return colours.into_iter().map(|(colour, _)| colour).collect();
        }
        let mut boxes = vec![colours];
        while boxes.len() < most {
            let widest = (0..boxes.len()).max_by_key(|at| weight(&boxes[*at])).expect("there is a box");
            if boxes[widest].len() == 1 {
                break;
            }
            let rest = cut(&mut boxes[widest]);
            boxes.push(rest);
        }
        boxes.iter().map(|colours| mean(colours)).collect()
    }
}

/// What a cut of the box is worth: the length of its longest side, times its pixels.
fn weight(colours: &[(Colour, u64)]) -> u64 {
    let (_, length) = longest_side(colours);
    u64::from(length) * colours.iter().map(|(_, count)| count).sum::<u64>()
}

/// The level along which the colours lie farthest apart, and how far.
fn longest_side(colours: &[(Colour, u64)]) -> (usize, u8) {
    let length = |level: usize| {
        let levels = || colours.iter().map(|(colour, _)| colour[level]);
        levels().max().unwrap_or(0) - levels().min().unwrap_or(0)
    };
    (0..3).map(|level| (level, length(level))).max_by_key(|(_, length)| *length).expect("there are three levels")
}

/// Cuts a box of two or more colours, and gives the upper half.
fn cut(colours: &mut Vec<(Colour, u64)>) -> Vec<(Colour, u64)> {
    let (side, _) = longest_side(colours);
    colours.sort_unstable_by_key(|(colour, _)| (colour[side], *colour));
    let half = colours.iter().map(|(_, count)| count).sum::<u64>() / 2;
    let mut before = 0;
    let is_lower = |(_, count): &&(Colour, u64)| {
        before += count;
        before <= half
    };
    let at = colours.iter().take_while(is_lower).count().clamp(1, colours.len() - 1);
    colours.split_off(at)
}

fn mean(colours: &[(Colour, u64)]) -> Colour {
    let whole: u64 = colours.iter().map(|(_, count)| count).sum();
    let sum = |level: usize| colours.iter().map(|(colour, count)| u64::from(colour[level]) * count).sum::<u64>();
    [0, 1, 2].map(|level| ((sum(level) + whole / 2) / whole) as u8)
}

/// A palette that pictures are reduced to.
pub struct Reduction {
    palette: Vec<Colour>,
    /// By how much dithering moves a level at most, to either side.
    reach: i32,
    /// What was searched for before.
    found: HashMap<Colour, Colour>,
}

impl Reduction {
    pub fn new(palette: Vec<Colour>, dither: bool) -> Reduction {
        let reach = if dither { reach(&palette) } else { 0 };
        Reduction { palette, reach, found: HashMap::new() }
    }

    /// The picture in colours of the palette. A pixel depends on its own colour and place alone, so that what stands
    /// still in one picture and the next stays as it is.
    pub fn reduced(&mut self, image: &Image) -> Image {
        let mut pixels = image.pixels.clone();
        for (at, pixel) in pixels.iter_mut().enumerate() {
            let shift = (2 * threshold(at % image.width, at / image.width) - 63) * self.reach / 64;
            *pixel = self.nearest(pixel.map(|level| (i32::from(level) + shift).clamp(0, 255) as u8));
        }
        Image { pixels, ..*image }
    }

    fn nearest(&mut self, colour: Colour) -> Colour {
        let nearest = |palette: &[Colour]| palette.iter().copied().min_by_key(|other| square(*other, colour));
        *self.found.entry(colour).or_insert_with(|| nearest(&self.palette).expect("a palette has colours"))
    }
}

/// The square of the distance between two colours.
fn square(one: Colour, other: Colour) -> u32 {
    (0..3).map(|level| u32::from(one[level].abs_diff(other[level])).pow(2)).sum()
}

/// Half of what lies between a colour of the palette and the nearest other, in the mean.
fn reach(palette: &[Colour]) -> i32 {
    let nearest =
        |colour: &Colour| palette.iter().filter(|other| *other != colour).map(|other| square(*other, *colour)).min();
    let distances: Vec<f64> = palette.iter().filter_map(nearest).map(|square| f64::from(square).sqrt()).collect();
    (distances.iter().sum::<f64>() / distances.len().max(1) as f64 / 2.0) as i32
}

/// The bits of x and of x + y in turns, the lowest first: 0 to 63, each once in a square.
fn threshold(x: usize, y: usize) -> i32 {
    let (x, y) = (x % SQUARE, y % SQUARE);
    let bit = |from: usize, at: usize| (from >> at & 1) as i32;
    (0..3).map(|at| bit(x ^ y, at) << (5 - 2 * at) | bit(y, at) << (4 - 2 * at)).sum()
}

#[cfg(test)]
mod tests {
    use super::*;

    fn image(width: usize, pixels: Vec<Colour>) -> Image {
        Image { width, height: pixels.len() / width, pixels }
    }

    fn palette(image: &Image, most: usize) -> Vec<Colour> {
        let mut counts = Counts::default();
        counts.add(image);
        counts.palette(most)
    }

    /// 64 by 64 pixels, 4,096 colours.
    fn ramp() -> Image {
        image(64, (0..4_096).map(|at| [(at % 64 * 4) as u8, (at / 64 * 4) as u8, 90]).collect())
    }

    fn error(one: &Image, other: &Image) -> f64 {
        let pairs = one.pixels.concat().into_iter().zip(other.pixels.concat());
        pairs.map(|(one, other)| f64::from(one.abs_diff(other)).powi(2)).sum::<f64>() / one.pixels.len() as f64
    }

    #[test]
    fn few_colours_stay_as_they_are() {
        let pixels = vec![[9, 9, 9], [1, 2, 3], [9, 9, 9], [200, 0, 0]];
        let few = image(2, pixels.clone());
        assert_eq!(palette(&few, 3), [[1, 2, 3], [9, 9, 9], [200, 0, 0]]);
        assert_eq!(Reduction::new(palette(&few, 256), false).reduced(&few).pixels, pixels);
    }

    #[test]
    fn a_palette_has_as_many_colours_as_are_asked_for() {
        for most in [2, 3, 16, 255, 256] {
            let found = palette(&ramp(), most);
            assert_eq!(found.len(), most);
            let reduced = Reduction::new(found.clone(), false).reduced(&ramp());
            assert!(reduced.pixels.iter().all(|pixel| found.contains(pixel)));
        }
    }

    #[test]
    fn more_colours_are_nearer() {
        let errors = [2, 16, 64, 256].map(|most| {
            let reduced = Reduction::new(palette(&ramp(), most), false).reduced(&ramp());
            error(&reduced, &ramp())
        });
        assert!(errors.windows(2).all(|pair| pair[1] < pair[0] / 2.0), "{errors:?}");
        // 256 boxes of 16 by 16 levels: no level is farther from its box's mean than 8.
        assert!(errors[3] <= 80.0, "{errors:?}");
    }

    #[test]
    fn a_cut_leaves_as_many_pixels_on_either_side() {
        let mut pixels = vec![[0; 3]; 90];
        pixels.extend((1..=10).map(|level| [100 + level; 3]));
        assert_eq!(palette(&image(10, pixels), 2), [[0; 3], [106; 3]]);
    }

    #[test]
    fn thresholds_are_met_once_each() {
        let mut met: Vec<i32> = (0..64).map(|at| threshold(at % 8, at / 8)).collect();
        met.sort_unstable();
        assert_eq!(met, (0..64).collect::<Vec<i32>>());
        assert_eq!(threshold(3, 5), threshold(11, 21));
    }

    #[test]
    fn dithering_brings_the_mean_of_an_area_nearer() {
        // Grey between two greys of the palette.
        let (palette, between) = (vec![[100; 3], [116; 3]], image(64, vec![[105; 3]; 4_096]));
        let mean = |dither: bool| {
            let reduced = Reduction::new(palette.clone(), dither).reduced(&between);
            reduced.pixels.iter().map(|pixel| f64::from(pixel[0])).sum::<f64>() / 4_096.0
        };
        assert_eq!(mean(false), 100.0);
        assert!((mean(true) - 105.0).abs() < 2.0, "{}", mean(true));
    }
}
