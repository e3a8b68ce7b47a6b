//! What a call is lent: slices as a caller of C hands them over, and the two sides of each that it must not touch. All
//! are slices of bytes here; some are words or a record to the call.

use flic_boundary::Player;
use std::marker::PhantomData;
use std::ops::{Deref, DerefMut};

/// What is lent besides bytes.
///
/// # Safety
///
/// Any bits are a value, and no byte of it is a gap.
pub unsafe trait Plain {}

// SAFETY: a number.
unsafe impl Plain for u32 {}
// SAFETY: a number.
unsafe impl Plain for u64 {}
// SAFETY: numbers side by side, with no gap between them or after them.
unsafe impl Plain for Record {}
const _: () = assert!(size_of::<Record>() == 6 * size_of::<u64>() + 4 * size_of::<u32>());
const _: () = assert!(size_of::<Record>() == size_of::<Player>() && align_of::<Record>() == align_of::<Player>());
const _: () = assert!(std::mem::offset_of!(Record, format) == std::mem::offset_of!(Player, format));

/// A player's record as it is lent, with the gap behind its fields, in which a call may leave anything.
#[repr(C)]
#[derive(Clone, Copy, Debug, PartialEq, Eq)]
pub struct Record {
    width: u64,
    height: u64,
    frames: u64,
    number: u64,
    place: u64,
    first_end: u64,
    speed: u32,
    last: u32,
    format: u32,
    gap: u32,
}

impl From<Player> for Record {
    fn from(player: Player) -> Record {
        let Player { width, height, frames, number, place, first_end, speed, last, format } = player;
        Record { width, height, frames, number, place, first_end, speed, last, format, gap: 0 }
    }
}

impl From<Record> for Player {
    fn from(record: Record) -> Player {
        let Record { width, height, frames, number, place, first_end, speed, last, format, gap: _ } = record;
        Player { width, height, frames, number, place, first_end, speed, last, format }
    }
}

/// The record of a player where it is lent. What a call leaves in the gap is no part of it, and is taken out again.
pub struct PlayerIn<'a>(&'a mut Record);

impl<'a> PlayerIn<'a> {
    pub fn of(bytes: &'a mut [u8]) -> PlayerIn<'a> {
        let [record] = values_in(bytes) else { panic!("one record is lent") };
        PlayerIn(record)
    }
}

impl Deref for PlayerIn<'_> {
    type Target = Player;

    fn deref(&self) -> &Player {
        // SAFETY: the fields of a record stand where a player's do.
        unsafe { &*(&raw const *self.0).cast() }
    }
}

impl DerefMut for PlayerIn<'_> {
    fn deref_mut(&mut self) -> &mut Player {
        // SAFETY: the same; the gap is set before anything reads it again.
        unsafe { &mut *(&raw mut *self.0).cast() }
    }
}

impl Drop for PlayerIn<'_> {
    fn drop(&mut self) {
        self.0.gap = 0;
    }
}

/// The bytes of values.
pub fn bytes_of<T: Plain>(values: &[T]) -> &[u8] {
    // SAFETY: none of them is a gap.
    unsafe { std::slice::from_raw_parts(values.as_ptr().cast(), size_of_val(values)) }
}

/// The values that stand in lent bytes, which must be aligned for them.
pub fn values_in<T: Plain>(bytes: &mut [u8]) -> &mut [T] {
    // SAFETY: any bits are a value.
    let (before, values, after) = unsafe { bytes.align_to_mut() };
    assert!(before.is_empty() && after.is_empty(), "whole values are lent, where such may stand");
    values
}

/// A side of a slice.
#[derive(Clone, Copy, Debug, PartialEq, Eq)]
pub enum Side {
    Before,
    After,
}

/// The slices of one call, in the order of the function's arguments.
pub struct Lent<'a> {
    slices: Vec<(*mut u8, usize)>,
    owned: PhantomData<&'a mut [u8]>,
}

impl<'a> Lent<'a> {
    /// Lends slices with nothing around them.
    pub fn of(slices: &'a mut [Vec<u8>]) -> Lent<'a> {
        let slices = slices.iter_mut().map(|slice| (slice.as_mut_ptr(), slice.len())).collect();
        Lent { slices, owned: PhantomData }
    }

    /// Lends slices by their pointers and lengths.
    ///
    /// # Safety
    ///
    /// Each pointer goes with its length, and no two slices overlap, while this is lent.
    pub unsafe fn at(slices: Vec<(*mut u8, usize)>) -> Lent<'a> {
        Lent { slices, owned: PhantomData }
    }

    /// All the slices, of which there must be so many.
    pub fn slices<const N: usize>(&mut self) -> [&mut [u8]; N] {
        assert_eq!(self.slices.len(), N, "a call takes the slices that it names");
        // SAFETY: whoever lent them says that each pointer goes with its length and that no two overlap.
        std::array::from_fn(|which| unsafe {
            let (pointer, length) = self.slices[which];
            std::slice::from_raw_parts_mut(pointer, length)
        })
    }

    /// Turns the bits of a slice's last byte, if it has one.
    pub fn spoil_last(&mut self, which: usize) {
        let (pointer, length) = self.slices[which];
        if length > 0 {
            // SAFETY: the byte is the slice's own.
            unsafe { *pointer.add(length - 1) ^= 0xFF }
        }
    }

    /// Turns the bits of the byte beside a slice, as a call that trespasses would; an empty slice has none.
    pub fn spoil_beside(&mut self, which: usize, side: Side) {
        if self.length(which) > 0 {
            // SAFETY: every way of lending that is watched has bytes on the side that isn't a guard page.
            unsafe { *self.beside(which, side) ^= 0xFF }
        }
    }

    /// The byte just outside a slice.
    pub fn beside(&self, which: usize, side: Side) -> *mut u8 {
        let (pointer, length) = self.slices[which];
        match side {
            Side::Before => pointer.wrapping_sub(1),
            Side::After => pointer.wrapping_add(length),
        }
    }

    pub fn length(&self, which: usize) -> usize {
        self.slices[which].1
    }
}

/// What a call left in the slices that it was lent.
pub struct Left {
    pub slices: Vec<Vec<u8>>,
    /// The slice beside which something was written.
    pub trespass: Option<usize>,
}

/// A way of lending: copies of slices for the time of a call, with what shows or stops a trespass.
pub trait Lender {
    /// Lends copies of these slices, of which some are aligned: the first, the second, .., as far as `aligned` tells.
    fn lend(&self, slices: &[&[u8]], aligned: &[usize], seed: u64, call: &mut dyn FnMut(&mut Lent)) -> Left;
}

/// How a slice is aligned.
pub fn alignment(aligned: &[usize], which: usize) -> usize {
    aligned.get(which).copied().unwrap_or(1)
}
