//! PNG pictures, where the tool is built without the crate for them.

use super::failure::{wrong, Outcome};
use super::image::Image;
use flic::State;

/// How a PNG file begins.
pub const MAGIC: &[u8] = b"\x89PNG\r\n\x1a\n";

const MISSING: &str = "this flic was built without PNG: install Debian's librust-png-dev, then run ./flic again";

/// Whether PNG can be written, for what is asked.
pub fn needed_for(what: &str) -> Outcome {
    wrong(format!("{what} can't be done: {MISSING}"))
}

/// Says why a picture isn't read.
pub fn read(_bytes: &[u8]) -> Result<Image, String> {
    Err(format!("is a PNG picture, and {MISSING}; or convert it to PPM first"))
}

/// Says why nothing is written.
pub fn indexed(_state: &State) -> Outcome<Vec<u8>> {
    wrong(MISSING.to_string())
}

/// Says why nothing is written.
pub fn coloured(_image: &Image, _mark: &str) -> Outcome<Vec<u8>> {
    wrong(MISSING.to_string())
}
