//! Families of wrong trailers: any byte changed, more or fewer bytes, and fields that fit one another but not the reel.

use super::make::trailer_of;
use crate::damage::changed_values;
use crate::model::{size_at, Format};
use crate::reels::headers::small_reel;
use crate::reels::loose_reel::Loose;
use crate::rng::Rng;
use crate::runner::calls::CheckTrailerCase;
use crate::runner::inputs::Sink;

/// Checks of a file with one byte changed to several values, that byte's own among them.
pub fn changed_at(whole: &[u8], at: usize, sink: Sink) {
    for value in changed_values(whole[at], false) {
        let mut changed = whole.to_vec();
        changed[at] = value;
        sink(CheckTrailerCase(changed).into());
    }
    sink(CheckTrailerCase(whole.to_vec()).into());
}

/// Each byte of a trailer changed in turn.
pub fn trailer_bytes(rng: &mut Rng, sink: Sink) {
    let reel = small_reel(rng, Format::Flc);
    let whole = [&reel[..], &trailer_of(&reel)].concat();
    for at in reel.len()..whole.len() {
        changed_at(&whole, at, sink);
    }
}

/// Every length of a trailer, bytes after it and before it, and each of its bytes left out in turn.
pub fn trailer_lengths(rng: &mut Rng, sink: Sink) {
    let reel = small_reel(rng, Format::Flc);
    let trailer = trailer_of(&reel);
    let mut check = |rest: &[&[u8]]| sink(CheckTrailerCase([&reel[..], &rest.concat()].concat()).into());
    for cut in 0..=trailer.len() {
        check(&[&trailer[..cut]]);
        check(&[&trailer[cut..]]);
        check(&[&trailer[..cut], &trailer[trailer.len().min(cut + 1)..]]);
    }
    for length in 1..=9 {
        let (zeros, chance) = (vec![0; length], rng.bytes(length));
        for more in [&zeros, &chance] {
            check(&[&trailer, more]);
            check(&[more, &trailer]);
        }
    }
    check(&[&trailer, &trailer]);
    check(&[&trailer, &trailer[trailer.len() - 8..]]);
}

/// What an index and a trailer tell.
#[derive(Clone)]
struct Fields {
    places: Vec<usize>,
    distance: usize,
    entries: usize,
    edition: u16,
}

impl Fields {
    fn of(trailer: &[u8]) -> Fields {
        let places = (0..trailer.len() / 4 - 2).map(|entry| size_at(trailer, 4 * entry)).collect();
        Fields::fitting(places)
    }

    /// These places, with the distance and entries that fit them.
    fn fitting(places: Vec<usize>) -> Fields {
        let (distance, entries) = (4 * places.len() + 8, places.len());
        Fields { places, distance, entries, edition: 1 }
    }

    fn bytes(&self) -> Vec<u8> {
        let mut bytes: Vec<u8> = self.places.iter().flat_map(|place| (*place as u32).to_le_bytes()).collect();
        bytes.extend((self.distance as u32).to_le_bytes());
        bytes.extend((self.entries as u16).to_le_bytes());
        bytes.extend(self.edition.to_le_bytes());
        bytes
    }
}

/// Trailers whose fields are wrong in ways that a writer could slip into.
pub fn trailer_fields(rng: &mut Rng, sink: Sink) {
    let mut loose = Loose::small(rng, Format::Flc);
    loose.add_others(rng);
    let reel = loose.bytes();
    let right = Fields::of(&trailer_of(&reel));
    let mut wrong = wrong_places(&right.places, &loose);
    wrong.extend([0, 4, 8, right.distance - 8, right.distance + 4, reel.len()].map(|distance| {
        let right = right.clone();
        Fields { distance, ..right }
    }));
    wrong.extend([0, 1, right.entries - 1, right.entries + 1, right.entries + 256].map(|entries| {
        let right = right.clone();
        Fields { entries, ..right }
    }));
    wrong.extend([0, 2, 256, 257].map(|edition| Fields { edition, ..right.clone() }));
    wrong.push(right);
    for fields in wrong {
        sink(CheckTrailerCase([&reel[..], &fields.bytes()].concat()).into());
    }
}

/// Indexes of other places: a frame left out or told twice, others told for it, none at all.
fn wrong_places(places: &[usize], loose: &Loose) -> Vec<Fields> {
    let mut all = vec![Vec::new(), (0..loose.chunks.len()).map(|which| loose.place_of(which)).collect()];
    for at in 0..places.len() {
        let (mut without, mut twice, mut swapped) = (places.to_vec(), places.to_vec(), places.to_vec());
        without.remove(at);
        twice.insert(at, places[at]);
        swapped.swap(at, 0);
        all.extend([without, twice, swapped]);
    }
    for by in 1..places.len() {
        let mut rotated = places.to_vec();
        rotated.rotate_left(by);
        all.push(rotated);
    }
    all.push(places.iter().map(|place| place - 128).collect());
    all.into_iter().map(Fields::fitting).collect()
}
