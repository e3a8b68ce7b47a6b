//! Families of listings: trees of chunks, chains of containers, children that don't fit, short containers, outputs.

use super::make::{each_call, list_of};
use super::nest::{children_start, chunk, container, Nester, CONTAINERS};
use crate::damage::{set_size, set_word, wrong_size_field};
use crate::frames::frame_of;
use crate::model::{kind, Format, FRAME_HEADER, FRAME_TYPE, MODEL, PREFIX_TYPE};
use crate::reels::loose_reel::Loose;
use crate::rng::Rng;
use crate::runner::calls::ListCase;
use crate::runner::inputs::{Case, Sink};
use crate::sizes::small_size;

/// The levels of containers that are tried.
const MOST_LEVELS: usize = 12;

/// A reel of these chunks, of which `frames` and the ring are frames.
fn reel_of(rng: &mut Rng, frames: usize, chunks: Vec<Vec<u8>>) -> Loose {
    let (width, height) = small_size(rng);
    Loose { format: Format::Flc, width, height, frames, chunks, after: Vec::new() }
}

/// The bytes of a reel of one blank frame and a blank ring, with this chunk before, between or after them.
fn around_still(rng: &mut Rng, chunk: Vec<u8>) -> Vec<u8> {
    let mut chunks = vec![frame_of(&[]), frame_of(&[])];
    chunks.insert(rng.pick(&[0, 0, 1, 1, 2]), chunk);
    reel_of(rng, 1, chunks).bytes()
}

/// A frame that holds what the tree holds; one shorter than a frame's header is made longer.
fn frame_tree(nester: &mut Nester, levels: usize) -> Vec<u8> {
    let mut frame = nester.tree(FRAME_TYPE, levels);
    if frame.len() < FRAME_HEADER {
        frame.resize(FRAME_HEADER, 0);
        set_size(&mut frame, 0, FRAME_HEADER as u32);
    }
    frame
}

/// A whole reel of trees, before the ring and after it.
fn reel_of_trees(rng: &mut Rng, slips: Option<usize>) -> Loose {
    let frames = rng.between(1, 3);
    let levels = rng.below(MOST_LEVELS + 1);
    let mut chunks = Vec::new();
    let mut nester = Nester { rng, slips };
    for _ in 0..=frames {
        if nester.rng.once_in(2) {
            let levels = nester.rng.pick(&[0, 1, 2, levels]);
            let kind = nester.kind(levels);
            let kind = if kind == FRAME_TYPE { PREFIX_TYPE } else { kind };
            chunks.push(nester.tree(kind, levels));
        }
        let levels = nester.rng.pick(&[0, 1, 2, levels]);
        chunks.push(frame_tree(&mut nester, levels));
    }
    if nester.rng.once_in(4) {
        chunks.push(nester.tree(PREFIX_TYPE, 1));
    }
    reel_of(rng, frames, chunks)
}

/// Trees of chunks with slips in them, listed.
pub fn trees(rng: &mut Rng, sink: Sink) {
    let slips = rng.pick(&[None, Some(4), Some(12), Some(40)]);
    let bytes = reel_of_trees(rng, slips).bytes();
    sink(list_of(rng, bytes));
}

/// Trees of which one top-level size is wrong, for each call.
pub fn tree_sizes(rng: &mut Rng, sink: Sink) {
    let loose = reel_of_trees(rng, Some(20));
    let mut bytes = loose.bytes();
    let which = rng.below(loose.chunks.len());
    let (place, right) = (loose.place_of(which), loose.chunks[which].len());
    let size = wrong_size_field(rng, right, 6, bytes.len() - place);
    set_size(&mut bytes, place, size);
    each_call(rng, bytes, sink);
}

/// Kinds of containers, one inside the next and over again.
const CHAINS: [&[u16]; 8] = [
    &[PREFIX_TYPE],
    &[FRAME_TYPE],
    &[kind::PSTAMP],
    &[PREFIX_TYPE, kind::PSTAMP],
    &[kind::PSTAMP, FRAME_TYPE],
    &[FRAME_TYPE, PREFIX_TYPE],
    &[kind::PSTAMP, kind::PSTAMP, PREFIX_TYPE],
    &[FRAME_TYPE, kind::PSTAMP, PREFIX_TYPE, kind::PSTAMP],
];

/// Each chain of containers to every depth, at top level or in the ring, with a leaf or an empty container in it.
pub fn chains(rng: &mut Rng, sink: Sink) {
    for kinds in CHAINS {
        for levels in 0..=MOST_LEVELS {
            let leaf = if rng.once_in(3) { container(rng.pick(&CONTAINERS), &[]) } else { chunk(4, &[1]) };
            let chain = (0..levels).rev().fold(leaf, |inner, level| container(kinds[level % kinds.len()], &[inner]));
            let bytes = if levels > 0 && kinds[0] == FRAME_TYPE {
                reel_of(rng, 1, vec![chain.clone(), chain]).bytes()
            } else {
                around_still(rng, chain)
            };
            sink(list_of(rng, bytes));
        }
    }
}

/// A container of three children, of which one says another size, or whose count is another, or which ends early.
pub fn misfits(rng: &mut Rng, sink: Sink) {
    let parent = rng.pick(&CONTAINERS);
    let mut nester = Nester { rng, slips: None };
    let children: Vec<Vec<u8>> = (0..3)
        .map(|_| {
            let kind = nester.kind(0);
            nester.tree(kind, 1)
        })
        .collect();
    let whole = container(parent, &children);
    let start = children_start(parent);
    for which in 0..3 {
        let place = start + children[..which].iter().map(Vec::len).sum::<usize>();
        let (right, left) = (children[which].len() as u32, (whole.len() - place) as u32);
        for size in [0, 5, 6, 7, right - 1, right + 1, left - 1, left, left + 1, left + 40, u32::MAX] {
            let mut wrong = whole.clone();
            set_size(&mut wrong, place, size);
            emit_inside(rng, wrong, sink);
        }
    }
    for count in [0, 1, 2, 3, 4, 255, 256, 259, 65_535] {
        let mut wrong = whole.clone();
        set_word(&mut wrong, 6, count);
        emit_inside(rng, wrong, sink);
    }
    for length in start..whole.len() {
        let mut cut = whole[..length].to_vec();
        set_size(&mut cut, 0, length as u32);
        emit_inside(rng, cut, sink);
    }
}

/// Lists a container that stands inside another with a neighbour behind it, so that there is something to run into.
fn emit_inside(rng: &mut Rng, inner: Vec<u8>, sink: Sink) {
    let outer = container(rng.pick(&[PREFIX_TYPE, FRAME_TYPE]), &[inner, chunk(4, &[0; 3])]);
    let bytes = if outer[4..6] == FRAME_TYPE.to_le_bytes() {
        reel_of(rng, 1, vec![outer, frame_of(&[])]).bytes()
    } else {
        around_still(rng, outer)
    };
    sink(list_of(rng, bytes));
}

/// Containers of 6 bytes up to a few more than their header, before a chunk whose bytes look like a child of theirs.
pub fn short_containers(rng: &mut Rng, sink: Sink) {
    for kind in CONTAINERS {
        let start = children_start(kind);
        for length in 6..=start + 7 {
            let count = rng.between(1, 3) as u8;
            let short = chunk(kind, &vec![count; length - 6]);
            let filler = vec![0; start.saturating_sub(length + 6)];
            let neighbour = chunk(1, &[filler, chunk(2, &[0; 4])].concat());
            let outer = container(PREFIX_TYPE, &[short.clone(), neighbour.clone()]);
            let bytes = around_still(rng, outer);
            sink(list_of(rng, bytes));
            if kind != FRAME_TYPE {
                let chunks = vec![short, neighbour, frame_of(&[]), frame_of(&[])];
                let bytes = reel_of(rng, 1, chunks).bytes();
                sink(list_of(rng, bytes));
            }
        }
    }
}

/// Every length of output from none to two bytes more than the text, for a short listing and for a refusal.
pub fn outputs(rng: &mut Rng, sink: Sink) {
    let reel = loop {
        let bytes = reel_of_trees(rng, Some(10)).bytes();
        if MODEL.text(&bytes).len() < 200 {
            break bytes;
        }
    };
    let cut = reel[..rng.below(reel.len())].to_vec();
    for bytes in [reel, cut, Vec::new()] {
        for room in 0..=MODEL.text(&bytes).len() + 2 {
            sink(Case::List(ListCase { bytes: bytes.clone(), out: rng.bytes(room) }));
        }
    }
}
