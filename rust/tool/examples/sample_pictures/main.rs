//! Draws the pictures of the sample reels into a directory, as PPM files: `sample_pictures DIR`.

mod board;
mod canvas;
#[path = "../../src/tool/font.rs"]
mod font;
mod pictures;

use canvas::Canvas;
use std::path::Path;
use std::{env, fs, io, process};

fn main() {
    let Some(directory) = env::args_os().nth(1) else {
        eprintln!("usage: sample_pictures DIR");
        process::exit(2);
    };
    let directory = Path::new(&directory);
    let reels = [("menu", pictures::menu()), ("fade", pictures::fade()), ("board", board::board())];
    if let Err(error) = reels.iter().try_for_each(|(name, pictures)| draw_all(name, pictures, directory)) {
        eprintln!("{}: the pictures can't be written: {error}", directory.display());
        process::exit(1);
    }
}

fn draw_all(name: &str, pictures: &[Canvas], directory: &Path) -> io::Result<()> {
    pictures
        .iter()
        .enumerate()
        .try_for_each(|(at, picture)| fs::write(directory.join(format!("{name}-{:02}.ppm", at + 1)), picture.ppm()))
}
