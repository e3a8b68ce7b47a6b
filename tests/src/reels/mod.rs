//! The tests of reels: what their calls lend, seeded inputs, and the comparison of the library with the model.

pub mod altered;
pub mod built;
pub mod built_reel;
pub mod chunks;
pub mod examples;
pub mod families;
pub mod headers;
pub mod lent;
pub mod loose_reel;
pub mod make;
pub mod records;
pub mod rings;
