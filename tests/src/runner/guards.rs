//! Slices that stand between guard bytes, so that a write outside them is seen.

use super::lent::{alignment, Left, Lender, Lent};
use crate::rng::{mix, Rng};
use std::alloc::{alloc_zeroed, Layout};
use std::ptr::NonNull;

const LEAST_GUARD: usize = 32;
const BACK_GUARD_MARK: u64 = 0xBAC6;

/// Lends slices between guard bytes.
pub struct GuardBytes;

impl Lender for GuardBytes {
    fn lend(&self, slices: &[&[u8]], aligned: &[usize], seed: u64, call: &mut dyn FnMut(&mut Lent)) -> Left {
        let guarded = |(which, slice): (usize, &&[u8])| {
            Guarded::holding(slice, alignment(aligned, which), mix(seed, which as u64))
        };
        let mut guarded: Vec<Guarded> = slices.iter().enumerate().map(guarded).collect();
        lend(&mut guarded, call);
        let trespass = guarded.iter().position(|slice| !slice.guards_hold());
        Left { slices: guarded.into_iter().map(|slice| slice.content().to_vec()).collect(), trespass }
    }
}

/// Lends what stands between guard bytes already.
pub fn lend<A>(guarded: &mut [Guarded], call: impl FnOnce(&mut Lent) -> A) -> A {
    // SAFETY: each pointer goes with its length into storage of its own, which is borrowed while the call is made.
    let mut lent = unsafe { Lent::at(guarded.iter_mut().map(|slice| (slice.pointer(), slice.length)).collect()) };
    call(&mut lent)
}

pub struct Guarded {
    storage: Vec<u8>,
    front: usize,
    length: usize,
    seed: u64,
}

/// How many guard bytes stand before the slice, which is aligned to 1, 2, 4 or 8 bytes.
fn front_length(align: usize, seed: u64) -> usize {
    LEAST_GUARD + (seed % 8) as usize / align * align
}

impl Guarded {
    /// A copy of `content`. The seed gives the guard bytes, and where between two aligned places it begins.
    pub fn holding(content: &[u8], align: usize, seed: u64) -> Guarded {
        let front = front_length(align, seed);
        let storage = vec![0; front + content.len() + LEAST_GUARD];
        let mut guarded = Guarded::guarding(storage, front, content.len(), seed);
        guarded.content_mut().copy_from_slice(content);
        guarded
    }

    /// Zeros that take no memory before they are written, if the system gives so many.
    pub fn of_zeros(length: usize, seed: u64) -> Option<Guarded> {
        let front = front_length(1, seed);
        let whole = front + length + LEAST_GUARD;
        let layout = Layout::array::<u8>(whole).ok()?;
        // SAFETY: the layout isn't empty, and a vector of bytes may own what the global allocator zeroed for it.
        let storage = unsafe {
            let pointer = NonNull::new(alloc_zeroed(layout))?;
            Vec::from_raw_parts(pointer.as_ptr(), whole, whole)
        };
        Some(Guarded::guarding(storage, front, length, seed))
    }

    fn guarding(mut storage: Vec<u8>, front: usize, length: usize, seed: u64) -> Guarded {
        Rng::new(seed).fill(&mut storage[..front]);
        Rng::new(mix(seed, BACK_GUARD_MARK)).fill(&mut storage[front + length..]);
        Guarded { storage, front, length, seed }
    }

    /// What a foreign caller would hand over; an empty slice has a pointer that must not be followed.
    fn pointer(&mut self) -> *mut u8 {
        if self.length == 0 {
            return NonNull::<u8>::dangling().as_ptr();
        }
        // SAFETY: the content begins inside the storage.
        unsafe { self.storage.as_mut_ptr().add(self.front) }
    }

    pub fn content(&self) -> &[u8] {
        &self.storage[self.front..self.front + self.length]
    }

    pub fn content_mut(&mut self) -> &mut [u8] {
        &mut self.storage[self.front..self.front + self.length]
    }

    pub fn guards_hold(&self) -> bool {
        let mut front = [0; LEAST_GUARD + 8];
        let mut back = [0; LEAST_GUARD];
        Rng::new(self.seed).fill(&mut front[..self.front]);
        Rng::new(mix(self.seed, BACK_GUARD_MARK)).fill(&mut back);
        self.storage[..self.front] == front[..self.front] && self.storage[self.front + self.length..] == back
    }
}

#[cfg(test)]
mod tests {
    use super::super::lent::Side;
    use super::*;
    use std::collections::BTreeSet;

    fn flipped_at(offset: usize) -> Guarded {
        let mut guarded = Guarded::holding(&[1, 2, 3], 1, 5);
        let byte = &mut guarded.storage[offset];
        *byte = !*byte;
        guarded
    }

    #[test]
    fn a_write_outside_is_seen_and_one_inside_is_not() {
        let guarded = Guarded::holding(&[1, 2, 3], 1, 5);
        let inside = guarded.front..guarded.front + 3;
        assert!(guarded.guards_hold());
        for offset in 0..guarded.storage.len() {
            assert_eq!(flipped_at(offset).guards_hold(), inside.contains(&offset));
        }
    }

    #[test]
    fn trespasses_are_told_of_their_slice() {
        let left = |deed: &mut dyn FnMut(&mut Lent)| {
            let Left { slices, trespass } = GuardBytes.lend(&[&[], &[1], &[2, 3]], &[], 6, deed);
            (slices, trespass)
        };
        let same = || vec![vec![], vec![1], vec![2, 3]];
        assert_eq!(left(&mut |_| {}), (same(), None));
        assert_eq!(left(&mut |lent| lent.spoil_beside(1, Side::Before)), (same(), Some(1)));
        assert_eq!(left(&mut |lent| lent.spoil_beside(2, Side::After)), (same(), Some(2)));
        assert_eq!(left(&mut |lent| lent.spoil_last(2)), (vec![vec![], vec![1], vec![2, 0xFC]], None));
    }

    #[test]
    fn slices_are_aligned_as_they_must_be() {
        let offsets = |align| {
            let offset = |seed| Guarded::holding(&[0; 8], align, seed).pointer() as usize % 8;
            (0..8).map(offset).collect::<BTreeSet<usize>>()
        };
        assert_eq!((offsets(1).len(), offsets(4), offsets(8)), (8, [0, 4].into(), [0].into()));
    }

    #[test]
    fn an_empty_slice_is_not_null() {
        assert!(!Guarded::holding(&[], 1, 1).pointer().is_null());
    }
}
