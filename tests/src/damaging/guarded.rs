//! Lends slices to a call so that each ends, or begins, at a guard page; the other side has bytes that must stay.

use super::pages::Stretch;
use flic_tests::rng::Rng;
use flic_tests::runner::lent::{Left, Lender, Lent, Side};
use std::cell::RefCell;
use std::ops::Range;

/// How many bytes on the side without a guard page are watched.
const WATCHED: usize = 64;

/// Lends slices against guard pages: all on this side of them, or on either side, as the seed says.
pub struct GuardPages(pub Option<Side>);

thread_local! {
    static STRETCHES: RefCell<Vec<Stretch>> = const { RefCell::new(Vec::new()) };
}

/// One slice's stretch while a call has it.
struct Loan<'a> {
    stretch: &'a mut Stretch,
    /// The side of the slice on which the guard page stands.
    side: Side,
    length: usize,
    watched: u8,
}

impl Loan<'_> {
    fn range(&self) -> Range<usize> {
        match self.side {
            Side::Before => 0..self.length,
            Side::After => self.stretch.length() - self.length..self.stretch.length(),
        }
    }

    fn watched_range(&self) -> Range<usize> {
        let Range { start, end } = self.range();
        match self.side {
            Side::Before => end..end + WATCHED,
            Side::After => start - WATCHED..start,
        }
    }

    fn lay(&mut self, content: &[u8]) {
        let (range, watched) = (self.range(), self.watched_range());
        self.stretch.bytes_mut()[watched].fill(self.watched);
        self.stretch.bytes_mut()[range].copy_from_slice(content);
    }

    fn is_trespassed(&self) -> bool {
        self.stretch.bytes()[self.watched_range()].iter().any(|byte| *byte != self.watched)
    }
}

/// Sees to a stretch for each slice that is long enough.
fn make_room(stretches: &mut Vec<Stretch>, slices: &[&[u8]]) {
    for (which, slice) in slices.iter().enumerate() {
        let needed = slice.len() + WATCHED;
        let new = || Stretch::of(2 * needed).expect("the system maps pages for a lent slice");
        if which == stretches.len() {
            stretches.push(new());
        } else if stretches[which].length() < needed {
            stretches[which] = new();
        }
    }
}

impl Lender for GuardPages {
    /// A slice of whole values that begins or ends at a page is aligned for them.
    fn lend(&self, slices: &[&[u8]], _aligned: &[usize], seed: u64, call: &mut dyn FnMut(&mut Lent)) -> Left {
        STRETCHES.with_borrow_mut(|stretches| {
            make_room(stretches, slices);
            let mut rng = Rng::new(seed);
            let loan = |(stretch, slice): (_, &&[u8])| {
                let drawn = rng.draw();
                let either = if drawn % 2 == 0 { Side::Before } else { Side::After };
                let side = self.0.unwrap_or(either);
                let mut loan = Loan { stretch, side, length: slice.len(), watched: (drawn >> 8) as u8 };
                loan.lay(slice);
                loan
            };
            let loans: Vec<Loan> = stretches.iter_mut().zip(slices).map(loan).collect();
            // SAFETY: each slice lies within a stretch of its own; an empty one may point to its end.
            let mut lent = unsafe {
                Lent::at(loans.iter().map(|loan| (loan.stretch.start().add(loan.range().start), loan.length)).collect())
            };
            call(&mut lent);
            Left {
                slices: loans.iter().map(|loan| loan.stretch.bytes()[loan.range()].to_vec()).collect(),
                trespass: loans.iter().position(Loan::is_trespassed),
            }
        })
    }
}
