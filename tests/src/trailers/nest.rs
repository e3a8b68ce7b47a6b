//! Makes chunks that hold chunks: plain ones, and trees of all kinds with slips in their counts and sizes.

use crate::damage::{set_size, set_word, wrong_size_field};
use crate::model::{kind, CHUNK_HEADER, FRAME_TYPE, PREFIX_TYPE};
use crate::rng::Rng;

/// The kinds that hold children.
pub const CONTAINERS: [u16; 3] = [PREFIX_TYPE, FRAME_TYPE, kind::PSTAMP];

/// Kinds that hold none, near those that do among them.
const LEAVES: [u16; 12] = [0, 1, 3, 4, 7, 15, 16, 17, 19, 0xF1FB, 0xF101, 0x0112];

/// Where the children of a container begin.
pub fn children_start(kind: u16) -> usize {
    match kind {
        kind::PSTAMP => 12,
        _ => 16,
    }
}

/// A chunk of this kind and body.
pub fn chunk(kind: u16, body: &[u8]) -> Vec<u8> {
    let mut bytes = [&[0; CHUNK_HEADER], body].concat();
    let size = bytes.len() as u32;
    set_size(&mut bytes, 0, size);
    set_word(&mut bytes, 4, kind);
    bytes
}

/// A chunk that holds these children and nothing more.
pub fn container(kind: u16, children: &[Vec<u8>]) -> Vec<u8> {
    let header = vec![0; children_start(kind) - CHUNK_HEADER];
    let mut bytes = chunk(kind, &[header, children.concat()].concat());
    set_word(&mut bytes, 6, children.len() as u16);
    bytes
}

/// Makes trees of chunks.
pub struct Nester<'a> {
    pub rng: &'a mut Rng,
    /// How rarely a count or the size of a child is wrong: once in so many turns, or never.
    pub slips: Option<usize>,
}

impl Nester<'_> {
    fn slip(&mut self) -> bool {
        self.slips.is_some_and(|turns| self.rng.once_in(turns))
    }

    /// A kind for a chunk that so many levels stand below.
    pub fn kind(&mut self, levels: usize) -> u16 {
        if levels > 0 || self.rng.once_in(3) {
            self.rng.pick(&CONTAINERS)
        } else {
            self.rng.pick(&LEAVES)
        }
    }

    /// A chunk with so many levels below it, where its kind holds any; its own size is right.
    pub fn tree(&mut self, kind: u16, levels: usize) -> Vec<u8> {
        if levels == 0 || !CONTAINERS.contains(&kind) {
            return self.leaf(kind);
        }
        let count = if kind == kind::PSTAMP { self.rng.pick(&[1, 1, 1, 2]) } else { self.rng.between(1, 3) };
        let deepest = self.rng.below(count);
        let children: Vec<Vec<u8>> = (0..count)
            .map(|which| {
                let below = if which == deepest { levels - 1 } else { self.rng.below(levels.min(3)) };
                self.child(below)
            })
            .collect();
        let mut bytes = container(kind, &children);
        self.rng.fill(&mut bytes[8..children_start(kind)]);
        self.count(&mut bytes, count);
        if self.rng.once_in(6) {
            let spare = self.rng.between(1, 9);
            bytes.extend(self.rng.bytes(spare));
            let size = bytes.len() as u32;
            set_size(&mut bytes, 0, size);
        }
        bytes
    }

    fn child(&mut self, levels: usize) -> Vec<u8> {
        let kind = self.kind(levels);
        let mut child = self.tree(kind, levels);
        if self.slip() {
            let right = child.len();
            let enclosed = right + self.rng.below(30);
            let size = wrong_size_field(self.rng, right, CHUNK_HEADER, enclosed);
            set_size(&mut child, 0, size);
        }
        child
    }

    fn count(&mut self, container: &mut [u8], right: usize) {
        if self.slip() {
            let count = self.rng.pick(&[0, 1, right - 1, right + 1, right + 2, 255, 256, 65_535]);
            set_word(container, 6, count as u16);
        }
    }

    /// A chunk that holds nothing on purpose; a container may be too short, or say that it holds something.
    fn leaf(&mut self, kind: u16) -> Vec<u8> {
        let length = match kind {
            FRAME_TYPE | PREFIX_TYPE | kind::PSTAMP if self.rng.once_in(2) => children_start(kind) - CHUNK_HEADER,
            _ => self.rng.below(16),
        };
        let small = self.rng.between(1, 9);
        let body: Vec<u8> = (0..length)
            .map(|_| if self.rng.below(10) < small { self.rng.below(9) as u8 } else { self.rng.byte() })
            .collect();
        chunk(kind, &body)
    }
}
