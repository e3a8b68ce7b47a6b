//! Compares the library's start of a player, its ticks and its replays with the model, and a night of ticks with both.

fn main() {
    flic_tests::programs::players().run();
}
