//! Runs the tool in directories of its own, and looks at what it says and leaves.

mod bench;
mod build;
mod check;
mod convert;
mod diff;
mod frames;
mod info;
mod list;
#[cfg(not(feature = "png"))]
mod no_png;
mod page;
mod pictures;
mod play;
#[cfg(feature = "png")]
mod png;
mod reels;
mod repair;
mod replay;
mod rewrite;
mod samples;
#[cfg(feature = "png")]
mod sheet;
mod standard;
mod tiles;
mod trailer;
mod usage;
