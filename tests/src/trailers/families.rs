//! The families of the tests of trailers, listings and steps; a family and a seed give the same inputs again.

use super::{around, changed, limits, nested, steps, walked, written};
use crate::model::Format::{Flc, Fli};
use crate::runner::inputs::{Case, Family};

/// The families that the self-check goes through, then those of large reels.
pub const FAMILIES: [Family<Case>; 26] = [
    Family { name: "ignored", batches: 4_000, emit: written::ignored },
    Family { name: "rooms", batches: 60, emit: written::rooms },
    Family { name: "old-trailers", batches: 1_000, emit: written::old_trailers },
    Family { name: "trailer-bytes", batches: 60, emit: changed::trailer_bytes },
    Family { name: "trailer-lengths", batches: 100, emit: changed::trailer_lengths },
    Family { name: "trailer-fields", batches: 500, emit: changed::trailer_fields },
    Family { name: "header-bytes", batches: 6, emit: |rng, sink| walked::header_bytes(rng, Flc, sink) },
    Family { name: "header-faults", batches: 200, emit: |rng, sink| walked::header_faults(rng, Flc, sink) },
    Family { name: "cuts", batches: 15, emit: |rng, sink| walked::cuts(rng, Flc, sink) },
    Family { name: "others", batches: 6_000, emit: |rng, sink| walked::others(rng, Flc, sink) },
    Family { name: "chunk-sizes", batches: 300, emit: |rng, sink| walked::chunk_sizes(rng, Flc, sink) },
    Family { name: "left-over", batches: 12, emit: |rng, sink| walked::left_over(rng, Flc, sink) },
    Family { name: "damaged", batches: 10_000, emit: |rng, sink| walked::damaged(rng, Flc, sink) },
    Family { name: "chance", batches: 2_000, emit: |rng, sink| walked::chance(rng, Flc, sink) },
    Family { name: "offsets", batches: 60, emit: steps::offsets },
    Family { name: "cut-reels", batches: 15, emit: steps::cut_reels },
    Family { name: "around", batches: 3_000, emit: around::around },
    Family { name: "trees", batches: 150_000, emit: nested::trees },
    Family { name: "tree-sizes", batches: 15_000, emit: nested::tree_sizes },
    Family { name: "chains", batches: 200, emit: nested::chains },
    Family { name: "misfits", batches: 600, emit: nested::misfits },
    Family { name: "short-containers", batches: 60, emit: nested::short_containers },
    Family { name: "outputs", batches: 100, emit: nested::outputs },
    Family { name: "counts", batches: 20, emit: written::counts },
    Family { name: "limits", batches: 10, emit: limits::limits },
    Family { name: "longest", batches: 2, emit: written::longest },
];

/// Those of what a walk may meet, of FLI.
pub const FLI_FAMILIES: [Family<Case>; 6] = [
    Family { name: "fli-header-bytes", batches: 2, emit: |rng, sink| walked::header_bytes(rng, Fli, sink) },
    Family { name: "fli-header-faults", batches: 20, emit: |rng, sink| walked::header_faults(rng, Fli, sink) },
    Family { name: "fli-cuts", batches: 2, emit: |rng, sink| walked::cuts(rng, Fli, sink) },
    Family { name: "fli-others", batches: 100, emit: |rng, sink| walked::others(rng, Fli, sink) },
    Family { name: "fli-chunk-sizes", batches: 5, emit: |rng, sink| walked::chunk_sizes(rng, Fli, sink) },
    Family { name: "fli-damaged", batches: 80, emit: |rng, sink| walked::damaged(rng, Fli, sink) },
];

/// How many of the families are of small reels.
pub const SMALL: usize = 23;

#[cfg(test)]
mod tests {
    use super::*;
    use crate::runner::inputs::same_again;

    #[test]
    fn a_seed_gives_its_batch_again() {
        FAMILIES[..SMALL].iter().chain(&FLI_FAMILIES).for_each(same_again);
    }
}
