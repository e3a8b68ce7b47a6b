//! The tests of tile maps: single pixels at the corners of tiles, widths around multiples of 8, pictures of chance, sizes
//! and slices that are refused, and the words themselves.

pub mod families;
pub mod make;
pub mod maps;
pub mod words;
