//! Compares the library's tile maps, and what it says of a word's marks, with the model.

fn main() {
    flic_tests::programs::tiles().run();
}
