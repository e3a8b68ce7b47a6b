//! The tests of trailers, listings and steps through a reel: what their calls lend, seeded inputs, and the comparison
//! with the model.

pub mod around;
pub mod changed;
pub mod examples;
pub mod families;
pub mod limits;
pub mod make;
pub mod nest;
pub mod nested;
pub mod steps;
pub mod walked;
pub mod written;
