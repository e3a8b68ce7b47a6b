//! Pictures brought to another size.

use super::image::Image;
use flic::Size;
use std::ops::Range;

/// How a pixel of the scaled picture is found.
#[derive(Clone, Copy, Debug, PartialEq, Eq)]
pub enum Way {
    /// The pixel under its centre.
    Nearest,
    /// The mean of the area that it covers.
    Average,
}

/// The picture, stretched to this size.
pub fn scaled(image: &Image, size: Size, way: Way) -> Image {
    let (width, height) = (usize::from(size.width()), usize::from(size.height()));
    let pixel = |at: usize| match way {
        Way::Nearest => nearest(image, width, height, at),
        Way::Average => average(image, width, height, at),
    };
    let pixels = match (image.width, image.height) == (width, height) {
        true => image.pixels.clone(),
        false => (0..width * height).map(pixel).collect(),
    };
    Image { width, height, pixels }
}

fn nearest(image: &Image, width: usize, height: usize, at: usize) -> [u8; 3] {
    let (x, y) = (centre(at % width, width, image.width), centre(at / width, height, image.height));
    image.pixels[y * image.width + x]
}

/// The pixel, of so many, in which the centre of the one at `at` lies.
fn centre(at: usize, count: usize, of: usize) -> usize {
    (2 * at + 1) * of / (2 * count)
}

/// The mean of the pixels under this one, each as far as it is covered.
fn average(image: &Image, width: usize, height: usize, at: usize) -> [u8; 3] {
    let (x, y) = (at % width, at / width);
    let mut sums = [0u64; 3];
    for (row, tall) in shares(y, height, image.height) {
        for (column, wide) in shares(x, width, image.width) {
            let pixel = image.pixels[row * image.width + column];
            (0..3).for_each(|level| sums[level] += u64::from(pixel[level]) * (tall * wide) as u64);
        }
    }
    let whole = (image.width * image.height) as u64;
    sums.map(|sum| ((sum + whole / 2) / whole) as u8)
}

/// The pixels, of so many, that the one at `at` covers, and how much of each; all shares sum up to `of`.
fn shares(at: usize, count: usize, of: usize) -> impl Iterator<Item = (usize, usize)> {
    let covered = at * of..(at + 1) * of;
    let share = move |pixel: usize| {
        let Range { start, end } = pixel * count..(pixel + 1) * count;
        (pixel, end.min(covered.end) - start.max(covered.start))
    };
    (at * of / count..((at + 1) * of).div_ceil(count)).map(share)
}

#[cfg(test)]
mod tests {
    use super::*;

    fn grey(width: usize, levels: &[u8]) -> Image {
        let pixels: Vec<[u8; 3]> = levels.iter().map(|level| [*level, *level / 2, 7]).collect();
        Image { width, height: pixels.len() / width, pixels }
    }

    fn levels(image: &Image, width: u16, height: u16, way: Way) -> Vec<u8> {
        let scaled = scaled(image, Size::new(width, height).unwrap(), way);
        assert_eq!((scaled.width, scaled.height), (width.into(), height.into()));
        scaled.pixels.iter().map(|pixel| pixel[0]).collect()
    }

    #[test]
    fn the_nearest_pixel_is_taken() {
        let image = grey(4, &[10, 20, 30, 40, 50, 60, 70, 80]);
        assert_eq!(levels(&image, 2, 1, Way::Nearest), [60, 80]);
        assert_eq!(levels(&image, 8, 2, Way::Nearest)[..8], [10, 10, 20, 20, 30, 30, 40, 40]);
        assert_eq!(levels(&image, 3, 1, Way::Nearest), [50, 70, 80]);
    }

    #[test]
    fn the_mean_of_what_is_covered_is_taken() {
        let image = grey(4, &[10, 20, 30, 40, 50, 60, 70, 80]);
        assert_eq!(levels(&image, 2, 1, Way::Average), [35, 55]);
        // Each covers one pixel and a third of another.
        assert_eq!(levels(&grey(4, &[30, 60, 90, 120]), 3, 1, Way::Average), [38, 75, 113]);
        assert_eq!(levels(&grey(1, &[9]), 5, 3, Way::Average), [9; 15]);
    }

    #[test]
    fn the_same_size_leaves_every_pixel() {
        let image = grey(3, &[1, 2, 3, 4, 5, 6]);
        for way in [Way::Nearest, Way::Average] {
            assert_eq!(levels(&image, 3, 2, way), [1, 2, 3, 4, 5, 6]);
        }
    }

    #[test]
    fn the_mean_of_the_whole_stays() {
        let image = grey(37, &(0..37 * 23).map(|at| (at * at % 251) as u8).collect::<Vec<u8>>());
        let mean = |levels: &[u8]| levels.iter().map(|level| f64::from(*level)).sum::<f64>() / levels.len() as f64;
        let before = mean(&image.pixels.iter().map(|pixel| pixel[0]).collect::<Vec<u8>>());
        for (width, height) in [(20, 11), (1, 1), (50, 40), (37, 1)] {
            let after = mean(&levels(&image, width, height, Way::Average));
            assert!((before - after).abs() < 0.6, "{width} by {height}: {before}, {after}");
        }
    }
}
