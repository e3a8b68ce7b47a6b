//! Pictures for the tests.

/// A PPM file, each pixel's colour given by its column and row.
pub fn ppm(width: usize, height: usize, colour: impl Fn(usize, usize) -> [u8; 3]) -> Vec<u8> {
    let mut bytes = format!("P6\n{width} {height}\n255\n").into_bytes();
    for y in 0..height {
        for x in 0..width {
            bytes.extend(colour(x, y));
        }
    }
    bytes
}

/// Pictures of 37 by 21 pixels that differ in places and colours.
pub fn pictures(count: usize) -> Vec<Vec<u8>> {
    let colour = |number: usize, x: usize, y: usize| match (x + number) % 9 {
        0 => [(number * 40) as u8, 0, 90],
        1..=3 if y % 4 == number % 4 => [200, (x * 6) as u8, (y / 4 * 20) as u8],
        _ => [10, 20, 30],
    };
    (0..count).map(|number| ppm(37, 21, |x, y| colour(number, x, y))).collect()
}

/// A picture of 320 by 200 pixels that no chunk makes shorter.
pub fn noise(number: usize) -> Vec<u8> {
    ppm(320, 200, |x, y| [((x * x + y * number * 31) * (x + y * y + number) % 251) as u8; 3])
}

/// Pictures of 320 by 200 pixels, as an FLI has them: a block that moves, a line that changes, and a colour that fades.
pub fn full_size(count: usize) -> Vec<Vec<u8>> {
    let colour = |number: usize, x: usize, y: usize| match (x / 8, y / 8) {
        (column, 3..6) if column == 4 + 3 * number => [255, 216, 64],
        (_, 20) if (x + number * x / 7) % 5 == 0 => [240, 240, 224],
        (30.., 10..) => [(40 * number) as u8, 40, 32],
        _ => [16, 40, 32],
    };
    (0..count).map(|number| ppm(320, 200, |x, y| colour(number, x, y))).collect()
}
