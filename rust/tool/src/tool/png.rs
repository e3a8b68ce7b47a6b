//! PNG pictures, by the crate png.

use super::failure::{wrong, Outcome};
use super::image::{pixels, Image};
use ::png::{BitDepth, ColorType, Decoder, Encoder, EncodingError, Transformations};
use flic::State;
use std::io::Cursor;

/// How a PNG file begins.
pub const MAGIC: &[u8] = b"\x89PNG\r\n\x1a\n";

/// Whether PNG can be written, for what is asked.
pub fn needed_for(_what: &str) -> Outcome {
    Ok(())
}

/// Reads one picture, or says what is wrong with it and what to do. Of 16 bits a level the upper 8 are taken.
pub fn read(bytes: &[u8]) -> Result<Image, String> {
    let damaged = |error: ::png::DecodingError| format!("is a damaged PNG ({error}): copy it anew, or make it anew");
    let mut decoder = Decoder::new(Cursor::new(bytes));
    decoder.set_transformations(Transformations::normalize_to_color8());
    let mut reader = decoder.read_info().map_err(damaged)?;
    let (width, height) = (reader.info().width as usize, reader.info().height as usize);
    let count = pixels(width, height)?;
    if let Some(frames @ 2..) = reader.info().animation_control().map(|animation| animation.num_frames) {
        return Err(format!("is an animated PNG of {frames} pictures: give one picture a file"));
    }
    let colours = reader.output_color_type().0;
    let mut levels = vec![0; reader.output_buffer_size()];
    reader.next_frame(&mut levels).map_err(damaged)?;
    let pixels = opaque(&levels, colours)?;
    debug_assert_eq!(pixels.len(), count);
    Ok(Image { width, height, pixels })
}

/// The pixels that these levels are, none of which may be transparent.
fn opaque(levels: &[u8], colours: ColorType) -> Result<Vec<[u8; 3]>, String> {
    let each = levels.chunks_exact(colours.samples());
    let has_alpha = matches!(colours, ColorType::GrayscaleAlpha | ColorType::Rgba);
    if has_alpha && each.clone().any(|levels| levels.last() != Some(&u8::MAX)) {
        return Err("has transparent pixels, which a board can't show: give it a ground first".to_string());
    }
    Ok(match colours {
        ColorType::Rgb | ColorType::Rgba => each.map(|levels| [levels[0], levels[1], levels[2]]).collect(),
        _ => each.map(|levels| [levels[0]; 3]).collect(),
    })
}

/// What a state shows, with its own palette.
pub fn indexed(state: &State) -> Outcome<Vec<u8>> {
    let (width, height) = (state.size().width().into(), state.size().height().into());
    written(width, height, state.picture.pixels(), |encoder| {
        encoder.set_color(ColorType::Indexed);
        encoder.set_palette(state.palette.bytes().to_vec());
        Ok(())
    })
}

/// A picture of red, green and blue, marked with who made it.
pub fn coloured(image: &Image, mark: &str) -> Outcome<Vec<u8>> {
    written(image.width as u32, image.height as u32, &image.pixels.concat(), |encoder| {
        encoder.set_color(ColorType::Rgb);
        encoder.add_text_chunk("Software".to_string(), mark.to_string())
    })
}

type Encoding<'a> = Encoder<'a, &'a mut Vec<u8>>;

/// A PNG file of these levels, 8 bits each, with what is set beside.
fn written(
    width: u32,
    height: u32,
    levels: &[u8],
    set: impl FnOnce(&mut Encoding) -> Result<(), EncodingError>,
) -> Outcome<Vec<u8>> {
    let mut bytes = Vec::new();
    let put = |bytes: &mut Vec<u8>| {
        let mut encoder = Encoder::new(bytes, width, height);
        encoder.set_depth(BitDepth::Eight);
        set(&mut encoder)?;
        encoder.write_header()?.write_image_data(levels)
    };
    match put(&mut bytes) {
        Ok(()) => Ok(bytes),
        Err(error) => wrong(format!("the PNG can't be made: {error}")),
    }
}

#[cfg(test)]
mod tests {
    use super::*;
    use flic::Size;

    fn png(colours: ColorType, depth: BitDepth, width: u32, levels: &[u8]) -> Vec<u8> {
        let mut bytes = Vec::new();
        let mut encoder = Encoder::new(&mut bytes, width, 1);
        encoder.set_color(colours);
        encoder.set_depth(depth);
        encoder.write_header().unwrap().write_image_data(levels).unwrap();
        bytes
    }

    #[test]
    fn what_is_written_is_read_back() {
        let mut state = State::blank(Size::new(3, 2).unwrap());
        state.picture.pixels_mut().copy_from_slice(&[0, 9, 255, 9, 9, 0]);
        state.palette.set_colour(9, [1, 2, 3]);
        state.palette.set_colour(255, [250, 251, 252]);
        let image = read(&indexed(&state).unwrap()).unwrap();
        assert_eq!((image.width, image.height, image.pixels.concat()), (3, 2, state.rgb()));
        assert_eq!(read(&coloured(&image, "a test").unwrap()), Ok(image));
    }

    #[test]
    fn every_form_of_levels() {
        let read = |colours, depth, width, levels: &[u8]| read(&png(colours, depth, width, levels)).unwrap().pixels;
        assert_eq!(read(ColorType::Grayscale, BitDepth::Eight, 2, &[0, 200]), [[0; 3], [200; 3]]);
        assert_eq!(read(ColorType::Grayscale, BitDepth::One, 3, &[0b0100_0000]), [[0; 3], [255; 3], [0; 3]]);
        assert_eq!(read(ColorType::Rgb, BitDepth::Sixteen, 1, &[1, 99, 2, 99, 3, 99]), [[1, 2, 3]]);
        assert_eq!(read(ColorType::Rgba, BitDepth::Eight, 1, &[1, 2, 3, 255]), [[1, 2, 3]]);
        assert_eq!(read(ColorType::GrayscaleAlpha, BitDepth::Eight, 1, &[7, 255]), [[7; 3]]);
    }

    #[test]
    fn what_is_wrong_is_said() {
        let clear = png(ColorType::Rgba, BitDepth::Eight, 2, &[1, 2, 3, 255, 1, 2, 3, 254]);
        assert!(read(&clear).unwrap_err().contains("transparent"));
        let whole = png(ColorType::Grayscale, BitDepth::Eight, 2, &[0, 200]);
        for length in MAGIC.len()..whole.len() - 12 {
            assert!(read(&whole[..length]).unwrap_err().contains("damaged PNG"), "{length}");
        }
    }

    #[test]
    fn an_animation_is_refused() {
        let mut bytes = Vec::new();
        let mut encoder = Encoder::new(&mut bytes, 1, 1);
        encoder.set_color(ColorType::Grayscale);
        encoder.set_animated(2, 0).unwrap();
        let mut writer = encoder.write_header().unwrap();
        writer.write_image_data(&[1]).unwrap();
        writer.write_image_data(&[2]).unwrap();
        drop(writer);
        assert!(read(&bytes).unwrap_err().contains("an animated PNG of 2 pictures"));
    }
}
