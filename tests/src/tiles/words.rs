//! Families of words of marks.

use crate::rng::Rng;
use crate::runner::calls::MarkedCase;
use crate::runner::inputs::{Case, Sink};

/// A word with many marks, with few, or with marks in a part of it.
pub fn chance(rng: &mut Rng, sink: Sink) {
    let (one, two, three) = (rng.draw(), rng.draw(), rng.draw());
    let part = (one << rng.below(64)) >> rng.below(64);
    sink(Case::Marked(MarkedCase(rng.pick(&[one, one & two, one & two & three, part]))));
}

/// No mark, each mark alone, each two marks, all up to one and all from one on.
pub fn bits(_rng: &mut Rng, sink: Sink) {
    sink(Case::Marked(MarkedCase(0)));
    for first in 0..64 {
        for last in first..64 {
            sink(Case::Marked(MarkedCase(1 << first | 1 << last)));
        }
        sink(Case::Marked(MarkedCase(u64::MAX << first)));
        sink(Case::Marked(MarkedCase(u64::MAX >> first)));
    }
}
