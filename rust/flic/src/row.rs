//! What a row takes in BRUN packets at least, and what the search for them took.

use crate::boundary;
use crate::refusal::Result;

/// What a row's packets cost.
#[derive(Clone, Copy, Debug, PartialEq, Eq)]
pub struct RowCost {
    /// The bytes of the packets, the ignored byte in front of them not counted.
    pub bytes: usize,
    /// The turns of the search, at most 16 for each pixel.
    pub turns: usize,
}

/// Searches for the BRUN packets of a row that take the fewest bytes, as writing a frame does for each row. Refused 2 for
/// a row that no picture has: no pixel, or more than 320.
///
/// ```
/// let cost = flic::search_row(&[1, 1, 2])?;
/// assert_eq!((cost.bytes, cost.turns), (4, 2));
/// assert_eq!(flic::search_row(&[]).unwrap_err().refusal.number(), 2);
/// # Ok::<(), flic::Refused>(())
/// ```
pub fn search_row(row: &[u8]) -> Result<RowCost> {
    let cost = boundary::search_row(row)?;
    Ok(RowCost { bytes: cost.bytes as usize, turns: cost.turns as usize })
}
