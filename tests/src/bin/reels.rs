//! Compares the library's whole-reel check, open, add and close with the model, and plays what was built three laps.

fn main() {
    flic_tests::programs::reels().run();
}
