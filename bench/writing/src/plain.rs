//! A plain encoder of the house form with the library's search: each body is written once, into a buffer that grows.

use flic_boundary::Pair;
use flic_tests::model::{kind, Format, CHUNK_HEADER, FRAME_HEADER, FRAME_TYPE};

use crate::search::Search;

const MOST_UNITS: usize = 127;

/// What the packets of a delta's row go by: how many pixels are one unit, how many equal units are a repeat, and how many
/// pixels a packet skips at most.
struct Packets {
    unit: usize,
    least_repeat: usize,
    most_skipped: usize,
}

const SS2: Packets = Packets { unit: 2, least_repeat: 2, most_skipped: 254 };
const LC: Packets = Packets { unit: 1, least_repeat: 3, most_skipped: 255 };

/// The buffers that are kept from frame to frame.
pub struct Encoder {
    search: Search,
    brun: Vec<u8>,
    delta: Vec<u8>,
}

impl Encoder {
    pub fn new() -> Encoder {
        Encoder { search: Search::new(), brun: Vec::new(), delta: Vec::new() }
    }

    /// Writes the house frame and gives its length.
    pub fn write_frame(
        &mut self,
        format: Format,
        width: usize,
        previous: Pair,
        next: Pair,
        out: &mut Vec<u8>,
    ) -> usize {
        out.clear();
        out.resize(FRAME_HEADER, 0);
        let colours = previous.palette != next.palette;
        let pixels = previous.picture != next.picture;
        if colours {
            push_colours(out, previous.palette, next.palette);
        }
        if pixels {
            self.push_picture(out, format, width, previous.picture, next.picture);
        }
        let length = out.len();
        out[..4].copy_from_slice(&(length as u32).to_le_bytes());
        out[4..6].copy_from_slice(&FRAME_TYPE.to_le_bytes());
        out[6] = u8::from(colours) + u8::from(pixels);
        length
    }

    fn push_picture(&mut self, out: &mut Vec<u8>, format: Format, width: usize, previous: &[u8], next: &[u8]) {
        let delta_kind = match format {
            Format::Flc => self.set_ss2(width, previous, next),
            Format::Fli => self.set_lc(width, previous, next),
        };
        if next.iter().all(|pixel| *pixel == 0) {
            return push_chunk(out, kind::BLACK, &[]);
        }
        self.set_brun(width, next);
        let (full_kind, full): (u16, &[u8]) =
            if self.brun.len() <= next.len() { (kind::BRUN, &self.brun) } else { (kind::COPY, next) };
        if self.delta.len() < full.len() {
            push_chunk(out, delta_kind, &self.delta);
        } else {
            push_chunk(out, full_kind, full);
        }
    }

    fn set_brun(&mut self, width: usize, next: &[u8]) {
        self.brun.clear();
        for row in next.chunks_exact(width) {
            self.search.row(row);
            let count_at = self.brun.len();
            self.brun.push(0);
            let (mut x, mut packets) = (0, 0);
            while x < width {
                let first = self.search.first[x];
                let count = (first as i8).unsigned_abs() as usize;
                self.brun.push(first);
                self.brun.extend_from_slice(if first < 128 { &row[x..x + 1] } else { &row[x..x + count] });
                x += count;
                packets += 1;
            }
            self.brun[count_at] = packets.min(255) as u8;
        }
    }

    fn set_ss2(&mut self, width: usize, previous: &[u8], next: &[u8]) -> u16 {
        self.delta.clear();
        self.delta.extend([0; 2]);
        let (mut lines, mut gap) = (0u16, 0u16);
        for (old, new) in previous.chunks_exact(width).zip(next.chunks_exact(width)) {
            if old == new {
                gap += 1;
                continue;
            }
            if gap > 0 {
                self.delta.extend(gap.wrapping_neg().to_le_bytes());
            }
            push_line(&mut self.delta, old, new);
            lines += 1;
            gap = 0;
        }
        self.delta[..2].copy_from_slice(&lines.to_le_bytes());
        kind::SS2
    }

    fn set_lc(&mut self, width: usize, previous: &[u8], next: &[u8]) -> u16 {
        self.delta.clear();
        self.delta.extend([0; 4]);
        let (mut first, mut rows, mut end) = (0u16, 0u16, self.delta.len());
        for (row, (old, new)) in (0u16..).zip(previous.chunks_exact(width).zip(next.chunks_exact(width))) {
            let changed = old != new;
            if end == 4 && !changed {
                continue;
            }
            if end == 4 {
                first = row;
            }
            let count_at = self.delta.len();
            self.delta.push(0);
            if changed {
                self.delta[count_at] = push_packets(&mut self.delta, &LC, old, new) as u8;
                (rows, end) = (row + 1 - first, self.delta.len());
            }
        }
        self.delta.truncate(end);
        self.delta[..2].copy_from_slice(&first.to_le_bytes());
        self.delta[2..4].copy_from_slice(&rows.to_le_bytes());
        kind::LC
    }
}

fn push_chunk(out: &mut Vec<u8>, kind: u16, body: &[u8]) {
    out.extend(((CHUNK_HEADER + body.len()) as u32).to_le_bytes());
    out.extend(kind.to_le_bytes());
    out.extend_from_slice(body);
}

fn push_colours(out: &mut Vec<u8>, previous: &[u8], next: &[u8]) {
    let same = |index: usize| previous[3 * index..][..3] == next[3 * index..][..3];
    let mut body = vec![0; 2];
    let (mut index, mut shown, mut packets) = (0, 0, 0u16);
    while index < 256 {
        if same(index) {
            index += 1;
            continue;
        }
        let after = (index..256).find(|i| same(*i)).unwrap_or(256);
        body.extend([(index - shown) as u8, (after - index) as u8]);
        body.extend_from_slice(&next[3 * index..3 * after]);
        (index, shown, packets) = (after, after, packets + 1);
    }
    body[..2].copy_from_slice(&packets.to_le_bytes());
    push_chunk(out, kind::COLOR256, &body);
}

fn push_line(out: &mut Vec<u8>, old: &[u8], new: &[u8]) {
    let last = new.len() - 1;
    if new.len() % 2 == 1 && old[last] != new[last] {
        out.extend([new[last], 0x80]);
    }
    let count_at = out.len();
    out.extend([0; 2]);
    let packets = push_packets(out, &SS2, old, new);
    out[count_at..count_at + 2].copy_from_slice(&(packets as u16).to_le_bytes());
}

/// Pushes the packets of a row, and gives how many they are.
#[inline(always)]
fn push_packets(out: &mut Vec<u8>, form: &Packets, old: &[u8], new: &[u8]) -> usize {
    let (unit, units) = (form.unit, new.len() / form.unit);
    let same = |at: usize| old[unit * at..][..unit] == new[unit * at..][..unit];
    let (mut at, mut shown, mut packets) = (0, 0, 0);
    while at < units {
        if same(at) {
            at += 1;
            continue;
        }
        let after = (at..units).find(|i| same(*i)).unwrap_or(units);
        packets += push_stretch(out, form, unit * (at - shown), &new[unit * at..unit * after]);
        (at, shown) = (after, after);
    }
    packets
}

/// Pushes the packets of a stretch of changed units that stands after `gap` pixels, and gives how many they are.
#[inline(always)]
fn push_stretch(out: &mut Vec<u8>, form: &Packets, mut gap: usize, mut pixels: &[u8]) -> usize {
    let mut packets = 0;
    while gap > form.most_skipped {
        out.extend([form.most_skipped as u8, 0]);
        gap -= form.most_skipped;
        packets += 1;
    }
    while !pixels.is_empty() {
        let equal = equal_units(form.unit, pixels);
        let repeats = equal >= form.least_repeat;
        let (taken, kind, data) = if repeats { (equal, (256 - equal) as u8, form.unit) } else { copied(form, pixels) };
        out.extend([gap as u8, kind]);
        out.extend_from_slice(&pixels[..data]);
        pixels = &pixels[form.unit * taken..];
        gap = 0;
        packets += 1;
    }
    packets
}

fn equal_units(unit: usize, pixels: &[u8]) -> usize {
    pixels.chunks_exact(unit).take(MOST_UNITS).take_while(|one| *one == &pixels[..unit]).count()
}

/// How many units are copied up to the next repeat, as a type byte too, and as bytes.
fn copied(form: &Packets, pixels: &[u8]) -> (usize, u8, usize) {
    let Packets { unit, least_repeat, .. } = *form;
    let is_repeat = |next: &[u8]| next[unit..] == next[..next.len() - unit];
    let repeat = pixels.windows(least_repeat * unit).step_by(unit).position(is_repeat);
    let units = repeat.unwrap_or(pixels.len() / unit).min(MOST_UNITS);
    (units, units as u8, unit * units)
}
