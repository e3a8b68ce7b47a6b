//! The damage run: seeded and mutated reels and frames through every entry point, against guard pages.

pub mod case;
pub mod command;
pub mod compare;
pub mod guarded;
pub mod kept;
pub mod life;
pub mod make;
pub mod met;
pub mod mutate;
pub mod numbers;
pub mod packed;
pub mod pages;
pub mod self_check;
pub mod spans;
pub mod stored;
pub mod twin;
