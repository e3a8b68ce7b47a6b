//! A case's twin: its frame with one more sub-chunk, so heavy that the library reads the frame in one pass.

use super::case::Case;
use super::compare::calls;
use flic_tests::damage::set_size;
use flic_tests::model::{accepted_size, field, size_at, Format, FILE_HEADER};
use flic_tests::rng::{mix, Rng};
use flic_tests::runner::calls::Call;
use flic_tests::ways::{heavy, put_in_frame};

const TWIN_MARK: u64 = 0x7717;

/// The entry points that read frames.
const READERS: [&str; 6] = ["read_frame", "rewrite_frame", "check_reel", "close_reel", "start_player", "tick"];

/// The twin of a case, if its size and its frame's header are right. Sizes and offsets of the reel around the frame grow
/// by as much, right or not.
pub fn twin(case: &Case) -> Option<Case> {
    let (width, _) = accepted_size(case.told(), case.width, case.height).ok()?;
    let rng = &mut Rng::new(mix(case.seed, TWIN_MARK));
    let (chunk, behind) = (heavy(rng, case.told(), width), rng.once_in(2));
    let mut frame = case.frame_bytes().to_vec();
    if !put_in_frame(&mut frame, &chunk, behind) {
        return None;
    }
    let mut twin = case.clone();
    let (start, more) = (case.frame.start, frame.len() - case.frame.len());
    twin.bytes.splice(case.frame.clone(), frame);
    twin.frame.end += more;
    if start >= FILE_HEADER {
        grow(&mut twin.bytes, field::SIZE, more);
        if case.told() == Format::Flc && size_at(&twin.bytes, field::OFRAME2) > start {
            grow(&mut twin.bytes, field::OFRAME2, more);
        }
    }
    if twin.reel.end > start as u64 {
        twin.reel.end = twin.reel.end.saturating_add(more as u64);
    }
    Some(twin)
}

/// The calls of a twin, of the entry points that read frames alone, with their seeds.
pub fn reading_calls(twin: &Case) -> Vec<(Box<dyn Call>, u64)> {
    calls(twin).into_iter().filter(|(call, _)| READERS.contains(&call.row().function)).collect()
}

fn grow(bytes: &mut [u8], offset: usize, more: usize) {
    let grown = (size_at(bytes, offset) as u32).wrapping_add(more as u32);
    set_size(bytes, offset, grown);
}
