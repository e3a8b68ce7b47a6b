//! `flic tiles`: which tiles a panel redraws at each frame.

use super::Command;
use crate::tool::arguments::{Arguments, Opt};
use crate::tool::failure::Outcome;
use crate::tool::say::say;
use crate::tool::{files, refused};
use flic::{CheckedReel, Frame, Picture, State, TileMap};

pub const COMMAND: Command = Command {
    name: "tiles",
    usage: "FILE [--map]",
    summary: "says which tiles of 8 by 8 pixels each frame redraws",
    about: "\
For each frame and for the ring a line is printed: how many tiles of 8 by 8 pixels, those at the right and at the bottom
cut short, have a pixel that differs from what showed before, and in which rows of tiles, counted from 0. Frame 1 is
drawn on a blank picture. Where the palette changes too, the line says so: tiles are marked by their pixels alone.",
    options: &[Opt { name: "--map", value: None, about: "draws the tiles behind each line, # redrawn and . not" }],
    run,
};

fn run(arguments: Arguments) -> Outcome {
    let with_map = arguments.has("--map");
    let [file] = arguments.exactly(["FILE"])?;
    let bytes = files::read_reel(&file)?;
    let reel = refused::checked(&file, &bytes)?;
    for redrawn in redrawn(&reel) {
        say(&redrawn.line())?;
        if with_map {
            say(&drawing(&redrawn.map))?;
        }
    }
    Ok(())
}

/// What a frame redraws.
struct Redrawn {
    frame: Frame,
    map: TileMap,
    has_new_colours: bool,
}

/// What each frame of a lap redraws, the ring's too.
fn redrawn<'a>(reel: &'a CheckedReel) -> impl Iterator<Item = Redrawn> + 'a {
    let mut shown = State::blank(reel.size());
    reel.frames().map(move |frame| {
        let map = between(&shown.picture, &frame.state.picture);
        let has_new_colours = shown.palette != frame.state.palette;
        shown = frame.state.clone();
        Redrawn { frame, map, has_new_colours }
    })
}

fn between(previous: &Picture, next: &Picture) -> TileMap {
    TileMap::between(previous, next).expect("the pictures of a reel have its size")
}

impl Redrawn {
    fn line(&self) -> String {
        let name = match self.frame.is_ring {
            true => "the ring".to_string(),
            false => format!("frame {}", self.frame.number),
        };
        let rows = match rows(&self.map) {
            none if none.is_empty() => String::new(),
            rows => format!(", rows {rows}"),
        };
        let colours = if self.has_new_colours { "; colours change" } else { "" };
        format!("{name}: {} of {} tiles{rows}{colours}\n", self.map.count(), self.map.tiles())
    }
}

/// The rows that have a marked tile, those that follow each other as first-last.
fn rows(map: &TileMap) -> String {
    let mut runs: Vec<(usize, usize)> = Vec::new();
    for (row, _) in map.rows().enumerate().filter(|(_, row)| row.count > 0) {
        match runs.last_mut() {
            Some((_, last)) if *last + 1 == row => *last = row,
            _ => runs.push((row, row)),
        }
    }
    let run = |(first, last): &(usize, usize)| match first == last {
        true => first.to_string(),
        false => format!("{first}-{last}"),
    };
    runs.iter().map(run).collect::<Vec<String>>().join(" ")
}

fn drawing(map: &TileMap) -> String {
    let dot = |column, row| if map.is_marked(column, row) { '#' } else { '.' };
    let line = |row| (0..map.columns()).map(|column| dot(column, row)).chain(['\n']).collect::<String>();
    (0..map.rows().len()).map(line).collect()
}

/// What share of the tiles a frame redraws, over a lap: frames 2 to the ring.
pub fn share(reel: &CheckedReel) -> String {
    let (mut marked, mut all) = (0, 0);
    for redrawn in redrawn(reel).skip(1) {
        marked += redrawn.map.count() as u64;
        all += redrawn.map.tiles() as u64;
    }
    let tenths = (marked * 1000 + all / 2) / all;
    format!("{}.{}% of the tiles of 8 by 8 pixels", tenths / 10, tenths % 10)
}

#[cfg(test)]
mod tests {
    use super::*;
    use flic::{Milliseconds, Reel, Size};

    /// A reel of 20 by 30 pixels, of three rows of tiles and a part of a fourth, each frame with one pixel set.
    fn reel(pixels: &[(usize, usize)]) -> Vec<u8> {
        let size = Size::new(20, 30).unwrap();
        let mut reel = Reel::open(size, Milliseconds(70)).unwrap();
        for (x, y) in pixels {
            let mut state = State::blank(size);
            state.picture.pixels_mut()[y * 20 + x] = 1;
            reel.add(&state).unwrap();
        }
        reel.close().unwrap()
    }

    fn lines(bytes: &[u8]) -> Vec<String> {
        redrawn(&CheckedReel::new(bytes).unwrap()).map(|redrawn| redrawn.line()).collect()
    }

    #[test]
    fn a_line_a_frame() {
        let found = lines(&reel(&[(0, 0), (19, 29), (19, 28)]));
        let expected = [
            "frame 1: 1 of 12 tiles, rows 0\n",
            "frame 2: 2 of 12 tiles, rows 0 3\n",
            "frame 3: 1 of 12 tiles, rows 3\n",
            "the ring: 2 of 12 tiles, rows 0 3\n",
        ];
        assert_eq!(found, expected);
    }

    #[test]
    fn rows_that_follow_each_other_are_one_range() {
        let size = Size::new(1, 200).unwrap();
        let (previous, mut next) = (Picture::blank(size), Picture::blank(size));
        for row in [0, 1, 2, 5, 23, 24] {
            next.pixels_mut()[8 * row] = 1;
        }
        assert_eq!(rows(&between(&previous, &next)), "0-2 5 23-24");
        assert_eq!(rows(&between(&previous, &previous)), "");
    }

    #[test]
    fn a_change_of_colours_alone_marks_no_tile() {
        let size = Size::new(1, 1).unwrap();
        let mut reel = Reel::open(size, Milliseconds(70)).unwrap();
        let mut state = State::blank(size);
        reel.add(&state).unwrap();
        state.palette.set_colour(0, [1; 3]);
        reel.add(&state).unwrap();
        let found = lines(&reel.close().unwrap());
        assert_eq!(found[0], "frame 1: 0 of 1 tiles\n");
        assert_eq!(found[1], "frame 2: 0 of 1 tiles; colours change\n");
    }

    #[test]
    fn a_drawing_has_a_dot_a_tile() {
        let bytes = reel(&[(0, 0), (19, 29)]);
        let reel = CheckedReel::new(&bytes).unwrap();
        let drawings: Vec<String> = redrawn(&reel).map(|redrawn| drawing(&redrawn.map)).collect();
        assert_eq!(drawings[0], "#..\n...\n...\n...\n");
        assert_eq!(drawings[1], "#..\n...\n...\n..#\n");
    }

    #[test]
    fn a_lap_leaves_frame_1_out() {
        let of = |bytes: &[u8]| share(&CheckedReel::new(bytes).unwrap());
        // 2, 1 and 2 of 12 tiles.
        assert_eq!(of(&reel(&[(0, 0), (19, 29), (19, 28)])), "13.9% of the tiles of 8 by 8 pixels");
        assert_eq!(of(&reel(&[(0, 0)])), "0.0% of the tiles of 8 by 8 pixels");
    }
}
