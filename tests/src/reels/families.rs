//! The families of the reel tests; a family and a seed give the same inputs again.

use super::{altered, built, chunks, headers, lent, records, rings};
use crate::model::Format::{Flc, Fli};
use crate::runner::inputs::{Case, Family};

/// The families that the self-check goes through, then those of large reels.
pub const FAMILIES: [Family<Case>; 21] = [
    Family { name: "built", batches: 900, emit: |rng, sink| built::built(rng, Flc, sink) },
    Family { name: "showing", batches: 500, emit: |rng, sink| built::showing(rng, Flc, sink) },
    Family { name: "opens", batches: 40, emit: headers::opens },
    Family { name: "header-bytes", batches: 12, emit: |rng, sink| headers::header_bytes(rng, Flc, sink) },
    Family { name: "header-faults", batches: 200, emit: |rng, sink| headers::header_faults(rng, Flc, sink) },
    Family { name: "cuts", batches: 25, emit: |rng, sink| headers::cuts(rng, Flc, sink) },
    Family { name: "others", batches: 6_000, emit: |rng, sink| chunks::others(rng, Flc, sink) },
    Family { name: "chunk-sizes", batches: 400, emit: |rng, sink| chunks::chunk_sizes(rng, Flc, sink) },
    Family { name: "left-over", batches: 12, emit: |rng, sink| chunks::left_over(rng, Flc, sink) },
    Family { name: "damaged", batches: 30_000, emit: |rng, sink| chunks::damaged(rng, Flc, sink) },
    Family { name: "chance", batches: 3_000, emit: |rng, sink| chunks::chance(rng, Flc, sink) },
    Family { name: "spare", batches: 60, emit: |rng, sink| chunks::spare(rng, Flc, sink) },
    Family { name: "rings", batches: 3_000, emit: |rng, sink| rings::rings(rng, Flc, sink) },
    Family { name: "records", batches: 60, emit: |rng, sink| records::records(rng, Flc, sink) },
    Family { name: "record-faults", batches: 600, emit: |rng, sink| records::record_faults(rng, Flc, sink) },
    Family { name: "rooms", batches: 60, emit: |rng, sink| records::rooms(rng, Flc, sink) },
    Family { name: "slices", batches: 100, emit: |rng, sink| lent::slices(rng, Flc, sink) },
    Family { name: "open-bytes", batches: 8, emit: |rng, sink| altered::open_bytes(rng, Flc, sink) },
    Family { name: "frame-edges", batches: 3_000, emit: |rng, sink| altered::frame_edges(rng, Flc, sink) },
    Family { name: "largest", batches: 5, emit: built::largest },
    Family { name: "longest", batches: 1, emit: built::longest },
];

/// The same of FLI, opens of one, and delays: those that show most come first.
pub const FLI_FAMILIES: [Family<Case>; 22] = [
    Family { name: "fli-opens", batches: 40, emit: headers::fli_opens },
    Family { name: "fli-faults", batches: 20, emit: |rng, sink| chunks::fli_faults(rng, Fli, sink) },
    Family { name: "not-in-fli", batches: 20, emit: |rng, sink| chunks::foreign(rng, Fli, sink) },
    Family { name: "fli-built", batches: 35, emit: |rng, sink| built::built(rng, Fli, sink) },
    Family { name: "fli-showing", batches: 20, emit: |rng, sink| built::showing(rng, Fli, sink) },
    Family { name: "fli-rings", batches: 30, emit: |rng, sink| rings::rings(rng, Fli, sink) },
    Family { name: "fli-records", batches: 8, emit: |rng, sink| records::records(rng, Fli, sink) },
    Family { name: "fli-record-faults", batches: 30, emit: |rng, sink| records::record_faults(rng, Fli, sink) },
    Family { name: "fli-header-faults", batches: 15, emit: |rng, sink| headers::header_faults(rng, Fli, sink) },
    Family { name: "fli-header-bytes", batches: 2, emit: |rng, sink| headers::header_bytes(rng, Fli, sink) },
    Family { name: "fli-cuts", batches: 2, emit: |rng, sink| headers::cuts(rng, Fli, sink) },
    Family { name: "fli-others", batches: 60, emit: |rng, sink| chunks::others(rng, Fli, sink) },
    Family { name: "fli-chunk-sizes", batches: 8, emit: |rng, sink| chunks::chunk_sizes(rng, Fli, sink) },
    Family { name: "fli-left-over", batches: 2, emit: |rng, sink| chunks::left_over(rng, Fli, sink) },
    Family { name: "fli-damaged", batches: 700, emit: |rng, sink| chunks::damaged(rng, Fli, sink) },
    Family { name: "fli-chance", batches: 50, emit: |rng, sink| chunks::chance(rng, Fli, sink) },
    Family { name: "fli-spare", batches: 5, emit: |rng, sink| chunks::spare(rng, Fli, sink) },
    Family { name: "fli-rooms", batches: 10, emit: |rng, sink| records::rooms(rng, Fli, sink) },
    Family { name: "fli-slices", batches: 8, emit: |rng, sink| lent::slices(rng, Fli, sink) },
    Family { name: "fli-open-bytes", batches: 2, emit: |rng, sink| altered::open_bytes(rng, Fli, sink) },
    Family { name: "fli-frame-edges", batches: 25, emit: |rng, sink| altered::frame_edges(rng, Fli, sink) },
    Family { name: "delays", batches: 1, emit: headers::delays },
];

/// How many of the families are of small reels.
pub const SMALL: usize = 19;

#[cfg(test)]
mod tests {
    use super::*;
    use crate::runner::inputs::same_again;

    #[test]
    fn a_seed_gives_its_batch_again() {
        FAMILIES[..SMALL].iter().chain(&FLI_FAMILIES).for_each(same_again);
    }
}
