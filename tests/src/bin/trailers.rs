//! Compares the library's trailers, listings and steps with the model, and the whole-reel check before and after a
//! trailer.

fn main() {
    flic_tests::programs::trailers().run();
}
