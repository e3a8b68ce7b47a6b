//! The tests of players: reels that are started and ticked, records and bytes that were altered, replays, and a night.

pub mod altered;
pub mod edges;
pub mod families;
pub mod live;
pub mod make;
pub mod night;
pub mod records;
pub mod replays;
pub mod starts;
