//! The families of the tests of players; a family and a seed give the same inputs again.

use super::{altered, edges, live, records, replays, starts};
use crate::model::Format::{Flc, Fli};
use crate::runner::inputs::{Case, Family};

/// The families that the self-check goes through, then those of large reels.
pub const FAMILIES: [Family<Case>; 27] = [
    Family { name: "ticked", batches: 4_000, emit: |rng, sink| live::ticked(rng, Flc, sink) },
    Family { name: "clocks", batches: 30, emit: |rng, sink| edges::clocks(rng, Flc, sink) },
    Family { name: "records", batches: 300, emit: |rng, sink| records::records(rng, Flc, sink) },
    Family { name: "faults", batches: 600, emit: |rng, sink| records::faults(rng, Flc, sink) },
    Family { name: "slices", batches: 300, emit: |rng, sink| records::slices(rng, Flc, sink) },
    Family { name: "changed-bytes", batches: 40, emit: |rng, sink| altered::changed_bytes(rng, Flc, sink) },
    Family { name: "cuts", batches: 60, emit: |rng, sink| altered::cuts(rng, Flc, sink) },
    Family { name: "damaged", batches: 60_000, emit: |rng, sink| altered::damaged(rng, Flc, sink) },
    Family { name: "spare", batches: 60, emit: |rng, sink| altered::spare(rng, Flc, sink) },
    Family { name: "left-over", batches: 20, emit: |rng, sink| altered::left_over(rng, Flc, sink) },
    Family { name: "behind", batches: 1_000, emit: |rng, sink| altered::behind(rng, Flc, sink) },
    Family { name: "replays", batches: 20_000, emit: replays::replays },
    Family { name: "replay-faults", batches: 600, emit: replays::faults },
    Family { name: "start-built", batches: 400, emit: |rng, sink| starts::built(rng, Flc, sink) },
    Family { name: "start-header-bytes", batches: 6, emit: |rng, sink| starts::header_bytes(rng, Flc, sink) },
    Family { name: "start-header-faults", batches: 100, emit: |rng, sink| starts::header_faults(rng, Flc, sink) },
    Family { name: "start-cuts", batches: 10, emit: |rng, sink| starts::cuts(rng, Flc, sink) },
    Family { name: "start-others", batches: 2_000, emit: |rng, sink| starts::others(rng, Flc, sink) },
    Family { name: "start-chunk-sizes", batches: 100, emit: |rng, sink| starts::chunk_sizes(rng, Flc, sink) },
    Family { name: "start-left-over", batches: 8, emit: |rng, sink| starts::left_over(rng, Flc, sink) },
    Family { name: "start-damaged", batches: 15_000, emit: |rng, sink| starts::damaged(rng, Flc, sink) },
    Family { name: "start-spare", batches: 20, emit: |rng, sink| starts::spare(rng, Flc, sink) },
    Family { name: "start-chance", batches: 1_000, emit: |rng, sink| starts::chance(rng, Flc, sink) },
    Family { name: "start-rings", batches: 1_000, emit: |rng, sink| starts::rings(rng, Flc, sink) },
    Family { name: "start-slices", batches: 60, emit: |rng, sink| starts::slices(rng, Flc, sink) },
    Family { name: "largest", batches: 5, emit: live::largest },
    Family { name: "longest", batches: 1, emit: live::longest },
];

/// The same of FLI, and frames that hold what an FLI may not.
pub const FLI_FAMILIES: [Family<Case>; 27] = [
    Family { name: "fli-faulty-frames", batches: 20, emit: |rng, sink| altered::fli_faults(rng, Fli, sink) },
    Family { name: "start-fli-faults", batches: 20, emit: |rng, sink| starts::fli_faults(rng, Fli, sink) },
    Family { name: "not-in-fli", batches: 20, emit: |rng, sink| altered::foreign(rng, Fli, sink) },
    Family { name: "start-not-in-fli", batches: 20, emit: |rng, sink| starts::foreign(rng, Fli, sink) },
    Family { name: "fli-ticked", batches: 30, emit: |rng, sink| live::ticked(rng, Fli, sink) },
    Family { name: "fli-clocks", batches: 2, emit: |rng, sink| edges::clocks(rng, Fli, sink) },
    Family { name: "fli-records", batches: 5, emit: |rng, sink| records::records(rng, Fli, sink) },
    Family { name: "fli-faults", batches: 20, emit: |rng, sink| records::faults(rng, Fli, sink) },
    Family { name: "fli-slices", batches: 15, emit: |rng, sink| records::slices(rng, Fli, sink) },
    Family { name: "fli-changed-bytes", batches: 2, emit: |rng, sink| altered::changed_bytes(rng, Fli, sink) },
    Family { name: "fli-cuts", batches: 2, emit: |rng, sink| altered::cuts(rng, Fli, sink) },
    Family { name: "fli-damaged", batches: 600, emit: |rng, sink| altered::damaged(rng, Fli, sink) },
    Family { name: "fli-spare", batches: 5, emit: |rng, sink| altered::spare(rng, Fli, sink) },
    Family { name: "fli-left-over", batches: 2, emit: |rng, sink| altered::left_over(rng, Fli, sink) },
    Family { name: "fli-behind", batches: 15, emit: |rng, sink| altered::behind(rng, Fli, sink) },
    Family { name: "fli-start-built", batches: 12, emit: |rng, sink| starts::built(rng, Fli, sink) },
    Family { name: "fli-start-header-bytes", batches: 1, emit: |rng, sink| starts::header_bytes(rng, Fli, sink) },
    Family { name: "fli-start-header-faults", batches: 6, emit: |rng, sink| starts::header_faults(rng, Fli, sink) },
    Family { name: "fli-start-cuts", batches: 1, emit: |rng, sink| starts::cuts(rng, Fli, sink) },
    Family { name: "fli-start-others", batches: 25, emit: |rng, sink| starts::others(rng, Fli, sink) },
    Family { name: "fli-start-chunk-sizes", batches: 3, emit: |rng, sink| starts::chunk_sizes(rng, Fli, sink) },
    Family { name: "fli-start-left-over", batches: 1, emit: |rng, sink| starts::left_over(rng, Fli, sink) },
    Family { name: "fli-start-damaged", batches: 600, emit: |rng, sink| starts::damaged(rng, Fli, sink) },
    Family { name: "fli-start-spare", batches: 2, emit: |rng, sink| starts::spare(rng, Fli, sink) },
    Family { name: "fli-start-chance", batches: 15, emit: |rng, sink| starts::chance(rng, Fli, sink) },
    Family { name: "fli-start-rings", batches: 12, emit: |rng, sink| starts::rings(rng, Fli, sink) },
    Family { name: "fli-start-slices", batches: 5, emit: |rng, sink| starts::slices(rng, Fli, sink) },
];

/// How many of the families are of small reels.
pub const SMALL: usize = 25;

#[cfg(test)]
mod tests {
    use super::*;
    use crate::runner::inputs::same_again;

    #[test]
    fn a_seed_gives_its_batch_again() {
        FAMILIES[..SMALL].iter().chain(&FLI_FAMILIES).for_each(same_again);
    }
}
