//! A terminal's screen as characters with their colours, and what it should show of a picture.

use flic::State;

type Colour = [u8; 3];

/// A character, its own colour and the one behind it; none where that is the terminal's.
#[derive(Clone, Copy, Debug, PartialEq, Eq)]
pub struct Cell {
    pub letter: char,
    pub front: Option<Colour>,
    pub back: Option<Colour>,
}

/// The rows of a screen from text in which colours are set by escape sequences, as tmux captures it.
pub fn parsed(text: &str) -> Vec<Vec<Cell>> {
    let (mut front, mut back) = (None, None);
    let mut row = |line: &str| {
        let mut cells = Vec::new();
        let mut letters = line.chars();
        while let Some(letter) = letters.next() {
            if letter != '\x1b' {
                cells.push(Cell { letter, front, back });
                continue;
            }
            let sequence: String = letters.by_ref().take_while(|letter| *letter != 'm').collect();
            (front, back) = coloured(&sequence, front, back);
        }
        cells
    };
    text.lines().map(&mut row).collect()
}

/// The colours after a sequence, `[` and numbers.
fn coloured(sequence: &str, front: Option<Colour>, back: Option<Colour>) -> (Option<Colour>, Option<Colour>) {
    let numbers: Vec<u8> = sequence[1..].split(';').map(|number| number.parse().unwrap_or(0)).collect();
    match numbers[..] {
        [38, 2, red, green, blue] => (Some([red, green, blue]), back),
        [48, 2, red, green, blue] => (front, Some([red, green, blue])),
        [39] => (None, back),
        [49] => (front, None),
        [0] => (None, None),
        _ => panic!("a sequence that no picture needs: {sequence}"),
    }
}

/// A picture with two pixels a character.
pub fn full_size(state: &State) -> Vec<Vec<Cell>> {
    mean_of_squares(state, 1)
}

/// A picture of which each square of so many pixels, by which both sides can be divided, is one.
pub fn mean_of_squares(state: &State, side: usize) -> Vec<Vec<Cell>> {
    let (width, height) = (usize::from(state.size().width()), usize::from(state.size().height()));
    assert!(width % side == 0 && height % (2 * side) == 0);
    let colours = state.rgb();
    let mean = |column: usize, row: usize| {
        let of = |which: usize| {
            let squares = (0..side * side).map(|at| (column * side + at % side, row * side + at / side));
            let sum: usize = squares.map(|(x, y)| usize::from(colours[3 * (y * width + x) + which])).sum();
            ((2 * sum + side * side) / (2 * side * side)) as u8
        };
        Some([of(0), of(1), of(2)])
    };
    let cell = |column, row| Cell { letter: '▀', front: mean(column, 2 * row), back: mean(column, 2 * row + 1) };
    (0..height / side / 2).map(|row| (0..width / side).map(|column| cell(column, row)).collect()).collect()
}
