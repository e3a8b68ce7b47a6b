//! Compares the library's flic_read_frame with the model, on seeded frames that are valid, damaged, or mere chance.

fn main() {
    flic_tests::programs::reading().run();
}
