//! The pictures of the sample reels.

use super::canvas::{Canvas, Colour};

const BOARD: Colour = [16, 40, 32];
const BAR: Colour = [96, 56, 24];
const CHALK: Colour = [240, 240, 224];
const DISH: Colour = [160, 208, 160];
const OPEN: Colour = [255, 216, 64];
const CLOSED: Colour = [208, 64, 48];

/// A menu whose soup row changes: for the day men, finished, and for the night.
pub fn menu() -> Vec<Canvas> {
    let soup = [("DAY MEN", OPEN), ("FINISHED", CLOSED), ("NIGHT 22:00", OPEN)];
    soup.into_iter().map(board).collect()
}

fn board(soup: (&str, Colour)) -> Canvas {
    let mut canvas = Canvas::new(160, 64, BOARD);
    canvas.rectangle(0, 0, 160, 13, BAR);
    canvas.text(56, 3, "MENU 12", CHALK);
    for (row, (dish, (who, colour))) in
        [("SOUP", soup), ("BREAD", ("ALL", OPEN)), ("TEA", ("ALL", OPEN))].into_iter().enumerate()
    {
        let y = 20 + 15 * row;
        canvas.text(8, y, dish, DISH);
        canvas.text(72, y, who, colour);
    }
    canvas
}

/// Evening: the same picture in colours that grow darker.
pub fn fade() -> Vec<Canvas> {
    const STEPS: usize = 12;
    (0..STEPS).map(|step| evening(STEPS - step, STEPS)).collect()
}

fn evening(light: usize, of: usize) -> Canvas {
    let dimmed = |colour: Colour| colour.map(|level| (usize::from(level) * light / of) as u8);
    let mut canvas = Canvas::new(96, 48, dimmed([80, 120, 200]));
    for band in 0..16 {
        let level = 16 * band as u8;
        canvas.rectangle(0, 2 * band, 96, 2, dimmed([64 + level / 2, 96 + level / 4, 240 - level]));
    }
    canvas.rectangle(0, 32, 96, 16, dimmed([56, 88, 40]));
    canvas.text(24, 37, "GOOD NIGHT", dimmed([255, 240, 200]));
    canvas
}
