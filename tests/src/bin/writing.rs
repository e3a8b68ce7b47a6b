//! Compares the library's flic_write_frame and flic_rewrite_frame with the model's house form, byte for byte.

fn main() {
    flic_tests::programs::writing().run();
}
