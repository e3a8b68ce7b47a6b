//! The independent test side of the codec: a second reading of the papers, seeded inputs, and the runner that compares.

pub mod cases;
pub mod damage;
pub mod fli_pictures;
pub mod frames;
pub mod huge;
pub mod model;
pub mod players;
pub mod programs;
pub mod reels;
pub mod rng;
pub mod runner;
pub mod sizes;
pub mod states;
pub mod tiles;
pub mod trailers;
pub mod ways;
pub mod write_cases;
pub mod wrong;
