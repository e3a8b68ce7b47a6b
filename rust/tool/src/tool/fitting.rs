//! What `flic build` does to pictures that a board can't show as they are, each only where it is asked for.

use super::arguments::{Arguments, Opt};
use super::failure::{misused, wrong, Outcome};
use super::files;
use super::image::Image;
use super::name::Shown;
use super::reduce::{Counts, Reduction};
use super::scale::{scaled, Way};
use flic::{Format, Size};
use std::collections::HashSet;
use std::path::{Path, PathBuf};

/// The most colours of a picture.
const MOST_COLOURS: u32 = 256;

pub const SCALE: Opt = Opt { name: "--scale", value: Some("WxH"), about: "stretches each picture to this size" };
pub const AVERAGE: Opt =
    Opt { name: "--average", value: None, about: "scales by the mean of each area, not by the nearest pixel" };
pub const COLOURS: Opt =
    Opt { name: "--colours", value: Some("N"), about: "reduces pictures with more colours to N (2 to 256)" };
pub const DITHER: Opt = Opt { name: "--dither", value: None, about: "mixes the reduced colours in a pattern" };

/// Reads pictures, and fits them as was asked.
pub struct Fitting {
    format: Format,
    scale: Option<(Size, Way)>,
    reduction: Option<(usize, Reduction)>,
}

impl Fitting {
    /// As the options ask for these pictures of a reel in a format, which are read once for their colours where those are
    /// to be reduced.
    pub fn asked(arguments: &Arguments, format: Format, pictures: &[PathBuf]) -> Outcome<Fitting> {
        let mut fitting = Fitting { format, scale: scale(arguments, format)?, reduction: None };
        let dither = arguments.has(DITHER.name);
        match arguments.number(COLOURS.name, 2)? {
            Some(most @ ..=MOST_COLOURS) => {
                let palette = fitting.palette(pictures, most as usize)?;
                fitting.reduction = Some((most as usize, Reduction::new(palette, dither)));
            }
            Some(most) => return misused(format!("{} takes 2 to {MOST_COLOURS}, not {most}", COLOURS.name)),
            None if dither => return misused(format!("{} is for {}", DITHER.name, COLOURS.usage())),
            None => {}
        }
        Ok(fitting)
    }

    /// A picture of a size that a board takes.
    pub fn read(&mut self, file: &Path) -> Outcome<(Image, Size)> {
        let (image, size) = self.read_as_it_is(file)?;
        match &mut self.reduction {
            Some((most, reduction)) if colours(&image) > *most => Ok((reduction.reduced(&image), size)),
            _ => Ok((image, size)),
        }
    }

    fn read_as_it_is(&self, file: &Path) -> Outcome<(Image, Size)> {
        let image = Image::read(&files::read(file)?).or_else(|words| wrong(format!("{}: {words}", file.shown())))?;
        if let Some((size, way)) = self.scale {
            return Ok((scaled(&image, size, way), size));
        }
        match image.size().filter(|size| takes(self.format, *size)) {
            Some(size) => Ok((image, size)),
            None => wrong(format!(
                "{}: is {}; {}: give --scale 320x200, or scale it first",
                file.shown(),
                image.measures(),
                match self.format {
                    Format::Flc => "a board takes 1 to 320 by 1 to 200",
                    Format::Fli => "an FLI is 320 by 200",
                }
            )),
        }
    }

    /// One palette for all pictures that have too many colours.
    fn palette(&self, pictures: &[PathBuf], most: usize) -> Outcome<Vec<[u8; 3]>> {
        let mut counts = Counts::default();
        for file in pictures {
            let (image, _) = self.read_as_it_is(file)?;
            if colours(&image) > most {
                counts.add(&image);
            }
        }
        Ok(counts.palette(most))
    }
}

/// Whether a reel of this format may have pictures of this size.
fn takes(format: Format, size: Size) -> bool {
    format == Format::Flc || size == Size::FLI
}

fn scale(arguments: &Arguments, format: Format) -> Outcome<Option<(Size, Way)>> {
    let average = arguments.has(AVERAGE.name);
    let Some(value) = arguments.value(SCALE.name) else {
        return match average {
            true => misused(format!("{} is for {}", AVERAGE.name, SCALE.usage())),
            false => Ok(None),
        };
    };
    let sides = value.to_str().and_then(|text| text.split_once('x'));
    let size = sides.and_then(|(width, height)| Size::new(width.parse().ok()?, height.parse().ok()?).ok());
    let way = if average { Way::Average } else { Way::Nearest };
    match size {
        Some(size) if takes(format, size) => Ok(Some((size, way))),
        Some(_) => misused(format!(
            "{} takes 320x200 for an FLI, whose pictures are of no other size, not {}",
            SCALE.name,
            Path::new(value).shown()
        )),
        None => misused(format!(
            "{} takes a size from 1x1 to 320x200, as 160x100, not {}",
            SCALE.name,
            Path::new(value).shown()
        )),
    }
}

fn colours(image: &Image) -> usize {
    image.pixels.iter().collect::<HashSet<_>>().len()
}
