//! The families of the tests of tile maps; a family and a seed give the same inputs again.

use super::{maps, words};
use crate::runner::inputs::{Case, Family};

/// The families of small pictures, then those of all widths.
pub const FAMILIES: [Family<Case>; 10] = [
    Family { name: "corners", batches: 1_500, emit: maps::corners },
    Family { name: "single-pixels", batches: 20_000, emit: maps::single_pixels },
    Family { name: "single-bits", batches: 4_000, emit: maps::single_bits },
    Family { name: "pictures", batches: 20_000, emit: maps::pictures },
    Family { name: "equal", batches: 2_000, emit: maps::equal },
    Family { name: "excess", batches: 2_000, emit: maps::excess },
    Family { name: "refused", batches: 20_000, emit: maps::refused },
    Family { name: "words", batches: 20_000, emit: words::chance },
    Family { name: "word-bits", batches: 4, emit: words::bits },
    Family { name: "widths", batches: 400, emit: maps::widths },
];

/// How many of the families are of small pictures.
pub const SMALL: usize = 9;

#[cfg(test)]
mod tests {
    use super::*;
    use crate::runner::inputs::same_again;

    #[test]
    fn a_seed_gives_its_batch_again() {
        FAMILIES[..SMALL].iter().for_each(same_again);
    }
}
