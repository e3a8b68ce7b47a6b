//! Other ways to map tiles and to look at a word of marks.

use super::{readings, rules};
use crate::model::tiles::{Tiles, BITS, TILE};
use crate::model::{accepted_size, long_enough, number, require, Document, Format, Refusal};
use flic_boundary::TileRow;

rules! {
    Tiles;
    OtherTile: tile_of(x: usize, y: usize) -> (usize, usize);
    OtherAlong: along(pixels: usize) -> usize;
    OtherChange: is_changed(previous: u8, next: u8) -> bool;
    OtherBit: bit(column: usize) -> u64;
    OtherRefusals: tile_rows(width: u64, height: u64, previous: &[u8], next: &[u8], words: usize) -> Result<(usize, usize), Refusal>;
    OtherMap: tile_map(width: u64, height: u64, previous: &[u8], next: &[u8], words: &mut [u64]) -> Result<usize, Refusal>;
    OtherMarks: marked_tiles(word: u64) -> TileRow;
}

/// The map with what the pictures hold at some pixels made equal first.
fn without(
    width: u64,
    height: u64,
    previous: &[u8],
    next: &[u8],
    words: &mut [u64],
    is_left_out: fn(usize, usize, usize, usize) -> bool,
) -> Result<usize, Refusal> {
    let (w, h) = Document.tile_rows(width, height, previous, next, words.len())?;
    let pixel = |(at, next): (usize, &u8)| match at < w * h && is_left_out(at % w, at / w, w, h) {
        true => previous[at],
        false => *next,
    };
    let next: Vec<u8> = next.iter().enumerate().map(pixel).collect();
    Document.tile_map(width, height, previous, &next, words)
}

readings! {
    MAPS: Tiles;
    TilesOf9Rows = OtherTile(|x, y| (x / TILE, y / 9));
    TilesOf16Rows = OtherTile(|x, y| (x / TILE, y / 16));
    TilesOf9Columns = OtherTile(|x, y| (x / 9, y / TILE));
    TilesFromColumn1 = OtherTile(|x, y| ((x + 7) / TILE, y / TILE));
    TileOfAPixel = OtherTile(|x, y| (x % 64, y / TILE));
    CutRowOfTilesNotCounted = OtherAlong(|pixels| (pixels / TILE).max(1));
    RowOfTilesTooMany = OtherAlong(|pixels| pixels / TILE + 1);
    OnlyBrighterPixels = OtherChange(|previous, next| next > previous);
    OnlyPixelsFrom0 = OtherChange(|previous, next| (previous == 0) != (next == 0));
    HighBitNotLookedAt = OtherChange(|previous, next| (previous ^ next) & 0x7F != 0);
    LowBitNotLookedAt = OtherChange(|previous, next| (previous ^ next) & 0xFE != 0);
    EqualPixelsMarked = OtherChange(|previous, next| previous == next);
    BitsFromTheTop = OtherBit(|column| 1 << (BITS as usize - 1 - column));
    BitsFrom1 = OtherBit(|column| 2 << column);
    BitsOf32 = OtherBit(|column| 1 << (column % 32));
    SlicesBeforeSize = OtherRefusals(|width, height, previous, next, words| {
        let pixels = width.saturating_mul(height).min(1 << 20) as usize;
        long_enough(pixels, &[previous, next], &[])?;
        Document.tile_rows(width, height, previous, next, words)
    });
    WordsBeforeSlices = OtherRefusals(|width, height, previous, next, words| {
        let (_, h) = accepted_size(Format::Flc, width, height)?;
        require(words >= Document.along(h), number::SHORT_OUTPUT, 0)?;
        Document.tile_rows(width, height, previous, next, words)
    });
    NextNotMeasured = OtherRefusals(|width, height, previous, next, words| {
        let (w, h) = accepted_size(Format::Flc, width, height)?;
        long_enough(w * h, &[previous], &[])?;
        require(words >= Document.along(h), number::SHORT_OUTPUT, 0)?;
        long_enough(w * h, &[next], &[]).map_err(|_| Refusal::new(number::SHORT_OUTPUT, 0))?;
        Ok((w, h))
    });
    WordForEachTile = OtherRefusals(|width, height, previous, next, words| {
        let (w, h) = Document.tile_rows(width, height, previous, next, words)?;
        require(words >= Document.along(w).min(4) * Document.along(h), number::SHORT_OUTPUT, 0)?;
        Ok((w, h))
    });
    LastColumnLeftOut = OtherMap(|width, height, previous, next, words| {
        without(width, height, previous, next, words, |x, _, w, _| x >= w / TILE * TILE)
    });
    LastRowLeftOut = OtherMap(|width, height, previous, next, words| {
        without(width, height, previous, next, words, |_, y, _, h| y >= h / TILE * TILE)
    });
    OnlyFirstRowOfTile = OtherMap(|width, height, previous, next, words| {
        without(width, height, previous, next, words, |_, y, _, _| y % TILE != 0)
    });
    OnlyFirstColumnOfTile = OtherMap(|width, height, previous, next, words| {
        without(width, height, previous, next, words, |x, _, _, _| x % TILE != 0)
    });
    LastPixelLeftOut = OtherMap(|width, height, previous, next, words| {
        without(width, height, previous, next, words, |x, y, w, h| (x, y) == (w - 1, h - 1))
    });
    WordsNotCleared = OtherMap(|width, height, previous, next, words| {
        let before = words.to_vec();
        let rows = Document.tile_map(width, height, previous, next, words)?;
        words[..rows].iter_mut().zip(before).for_each(|(word, before)| *word |= before);
        Ok(rows)
    });
    WordsBehindCleared = OtherMap(|width, height, previous, next, words| {
        let rows = Document.tile_map(width, height, previous, next, words)?;
        words[rows..].fill(0);
        Ok(rows)
    });
    WidthAndHeightExchanged = OtherMap(|width, height, previous, next, words| {
        Document.tile_rows(width, height, previous, next, words.len())?;
        let mut turned = vec![0; (width as usize).div_ceil(TILE)];
        match Document.tile_map(height, width, previous, next, &mut turned) {
            Ok(_) => {
                let rows = Document.along(height as usize);
                words[..rows].iter_mut().zip(turned.into_iter().chain([0; 64])).for_each(|(word, mark)| *word = mark);
                Ok(rows)
            }
            Err(_) => Document.tile_map(width, height, previous, next, words),
        }
    });
    WordsTold = OtherMap(|width, height, previous, next, words| {
        Document.tile_map(width, height, previous, next, words)?;
        Ok(words.len())
    });
}

readings! {
    MARKS: Tiles;
    ZerosCounted = OtherMarks(|word| TileRow { count: word.count_zeros(), ..Document.marked_tiles(word) });
    FirstAndLastExchanged = OtherMarks(|word| {
        let TileRow { count, first, last } = Document.marked_tiles(word);
        TileRow { count, first: last, last: first }
    });
    SixtyThreeForNone = OtherMarks(|word| match Document.marked_tiles(word) {
        TileRow { count: 0, .. } => TileRow { count: 0, first: 63, last: 63 },
        row => row,
    });
    LastOfNoneIs0 = OtherMarks(|word| match Document.marked_tiles(word) {
        TileRow { count: 0, first, .. } => TileRow { count: 0, first, last: 0 },
        row => row,
    });
    LastFromTheTop = OtherMarks(|word| TileRow { last: word.leading_zeros(), ..Document.marked_tiles(word) });
    LastIsPastTheMark = OtherMarks(|word| TileRow { last: BITS - word.leading_zeros(), ..Document.marked_tiles(word) });
    FirstFromOne = OtherMarks(|word| {
        let row = Document.marked_tiles(word);
        TileRow { first: (row.first + 1).min(BITS), ..row }
    });
    WordOf32Bits = OtherMarks(|word| Document.marked_tiles(word & 0xFFFF_FFFF));
    TilesOf40 = OtherMarks(|word| Document.marked_tiles(word & ((1 << 40) - 1)));
    SpanCounted = OtherMarks(|word| {
        let row = Document.marked_tiles(word);
        TileRow { count: if row.count == 0 { 0 } else { row.last - row.first + 1 }, ..row }
    });
}
