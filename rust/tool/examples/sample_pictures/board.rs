//! A board for a day and a night: 48 pictures of 320 by 200, half an hour each, from midnight on. Dishes with prices, a
//! clock, a line that runs, steam over a bowl, and a window in which colours alone make day of night.
//!
//! All levels are such as the old boards have, 64 of them, so that an FLI can show the same.

use super::canvas::{Canvas, Colour};

const WIDTH: usize = 320;
const HEIGHT: usize = 200;
const FRAMES: usize = 48;

const WALL: Colour = [72, 48, 32];
const BAR: Colour = [96, 56, 24];
const SLATE: Colour = [16, 40, 32];
const CHALK: Colour = [240, 240, 224];
const DISH: Colour = [160, 208, 160];
const OPEN: Colour = [255, 216, 64];
const CLOSED: Colour = [208, 64, 48];
const WOOD: Colour = [136, 92, 52];
const STRIP: Colour = [12, 12, 20];
const BOWL: Colour = [224, 228, 236];
const SHADE: Colour = [160, 168, 188];
const SOUP: Colour = [220, 132, 40];
const STEAM: Colour = [200, 204, 208];

/// The line that runs, a letter a picture: as many letters as there are pictures.
const LINE: &str = "HOT SOUP AT THE HATCH, FROM MIDNIGHT TO 5   +   ";

/// For whom there is soup.
enum Soup {
    Night,
    Day,
    Finished,
}

/// All pictures, in their order.
pub fn board() -> Vec<Canvas> {
    (0..FRAMES).map(|at| picture(at, soup(at))).collect()
}

/// Soup for the night from midnight to five, for the day men until six in the evening.
fn soup(at: usize) -> Soup {
    match at / 2 {
        ..5 => Soup::Night,
        5..18 => Soup::Day,
        _ => Soup::Finished,
    }
}

fn picture(at: usize, soup: Soup) -> Canvas {
    let mut canvas = Canvas::new(WIDTH, HEIGHT, level64(WALL));
    header(&mut canvas, at);
    window(&mut canvas, light(at));
    counter(&mut canvas, at);
    dishes(&mut canvas, soup);
    line(&mut canvas, at);
    canvas
}

/// A colour in 64 levels, as a board shows them.
fn level64(colour: Colour) -> Colour {
    colour.map(|level| (level & !3) | level >> 6)
}

fn header(canvas: &mut Canvas, at: usize) {
    canvas.rectangle(0, 0, WIDTH, 24, level64(BAR));
    canvas.rectangle(0, 22, WIDTH, 2, level64(CLOSED));
    canvas.large_text(8, 4, 2, "CANTEEN 12", level64(CHALK));
    let colon = if at % 2 == 0 { ':' } else { ' ' };
    let clock = format!("{:02}{colon}{:02}", at / 2, at % 2 * 30);
    canvas.large_text(252, 4, 2, &clock, level64(OPEN));
}

/// How light it is, 0 to 64: dark until half past four, light from half past seven to five, dark from nine on.
fn light(at: usize) -> usize {
    const FULL: usize = 64;
    let (dawn, dusk) = (at.saturating_sub(9).min(6), at.saturating_sub(34).min(8));
    FULL * dawn / 6 - FULL * dusk / 8
}

/// What lies between a colour of the night and one of the day.
fn between(night: Colour, day: Colour, light: usize) -> Colour {
    let mixed = |at: usize| (usize::from(night[at]) * (64 - light) + usize::from(day[at]) * light) / 64;
    level64([0, 1, 2].map(|at| mixed(at) as u8))
}

fn window(canvas: &mut Canvas, light: usize) {
    const BANDS: usize = 6;
    canvas.rectangle(6, 30, 120, 84, level64(WOOD));
    for band in 0..BANDS {
        let low = |from: u8, to: u8| (usize::from(from) + usize::from(to - from) * band / (BANDS - 1)) as u8;
        let glow = (light * (64 - light) / 16 * band / BANDS) as u8;
        let day = [low(64, 176).saturating_add(glow), low(128, 208), low(216, 240) - glow / 2];
        canvas.rectangle(10, 34 + 10 * band, 112, 10, between([low(0, 40), low(0, 32), low(24, 88)], day, light));
    }
    if light < 16 {
        for (x, y) in
            [(18, 40), (37, 52), (52, 38), (71, 61), (84, 44), (97, 57), (112, 39), (29, 68), (60, 73), (106, 70)]
        {
            canvas.rectangle(x, y, 1, 1, level64([176, 176, 192]));
        }
    }
    let (hill, house) = (between([8, 20, 20], [56, 116, 48], light), between([28, 24, 32], [168, 128, 96], light));
    let roof = between([36, 20, 24], [152, 68, 48], light);
    for x in 0..112 {
        let height = 10 + x * (111 - x) / 250;
        canvas.rectangle(10 + x, 110 - height, 1, height, hill);
    }
    for x in [26, 58, 92] {
        canvas.rectangle(x, 84, 16, 12, house);
        for row in 0..5 {
            canvas.rectangle(x + 7 - 2 * row, 79 + row, 2 + 4 * row, 1, roof);
        }
        for pane in [2, 9] {
            canvas.rectangle(x + pane, 87, 4, 4, between([255, 200, 80], [104, 124, 140], light));
        }
    }
}

fn counter(canvas: &mut Canvas, at: usize) {
    canvas.rectangle(0, 150, 132, 12, level64(WOOD));
    canvas.rectangle(0, 162, 132, 4, level64(BAR));
    // A bowl: rows that grow shorter, and the soup in it.
    for row in 0..22 {
        let side = 6 + row * row / 28;
        canvas.rectangle(32 + side, 128 + row, 68 - 2 * side, 1, level64(if row < 14 { BOWL } else { SHADE }));
    }
    canvas.rectangle(36, 126, 60, 2, level64(BOWL));
    canvas.rectangle(40, 127, 52, 3, level64(SOUP));
    [50, 65, 80].into_iter().enumerate().for_each(|(strand, x)| steam(canvas, x, at + 5 * strand));
}

/// A strand of steam that winds and rises, the same again after eight pictures.
fn steam(canvas: &mut Canvas, x: usize, at: usize) {
    const WAVE: [usize; 16] = [2, 3, 3, 4, 4, 4, 3, 3, 2, 1, 1, 0, 0, 0, 1, 1];
    for row in 0..28 {
        let phase = (row + 2 * at) % 16;
        if (row + 4 * at) % 32 < 24 - row / 2 {
            canvas.rectangle(x + WAVE[phase], 124 - row, if row < 14 { 2 } else { 1 }, 1, level64(STEAM));
        }
    }
}

fn dishes(canvas: &mut Canvas, soup: Soup) {
    canvas.rectangle(134, 30, 182, 136, level64(WOOD));
    canvas.rectangle(138, 34, 174, 128, level64(SLATE));
    let right = |text: &str| 306 - 12 * text.len();
    let (price, colour, whose) = match soup {
        Soup::Night => ("2.40", OPEN, "NIGHT SHIFT, 0:00 TO 5:00"),
        Soup::Day => ("2.40", OPEN, "DAY MEN, 5:00 TO 18:00"),
        Soup::Finished => ("FINISHED", CLOSED, ""),
    };
    canvas.large_text(144, 42, 2, "SOUP", level64(DISH));
    canvas.large_text(right(price), 42, 2, price, level64(colour));
    canvas.large_text(144, 60, 1, whose, level64(CHALK));
    for (row, (dish, price)) in
        [("BREAD", "0.60"), ("STEW", "4.80"), ("NOODLES", "3.90"), ("TEA", "0.50")].into_iter().enumerate()
    {
        let y = 76 + 22 * row;
        canvas.large_text(144, y, 2, dish, level64(DISH));
        canvas.large_text(right(price), y, 2, price, level64(OPEN));
    }
}

fn line(canvas: &mut Canvas, at: usize) {
    assert_eq!(LINE.len(), FRAMES);
    canvas.rectangle(0, 176, WIDTH, 24, level64(STRIP));
    let running = LINE.repeat(2);
    canvas.large_text(4, 181, 2, &running[at..at + 26], level64(OPEN));
}
