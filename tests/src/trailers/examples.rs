//! Document 01's examples of a trailer and of a listing, as it says; both are of its blank reel of 1 by 1.

/// What stands after the reel's 160 bytes.
pub const BLANK_TRAILER: [u8; 16] = [0x80, 0, 0, 0, 0x90, 0, 0, 0, 0x10, 0, 0, 0, 2, 0, 1, 0];

/// The whole listing.
pub const BLANK_LISTING: &str = "flic 1 1 1\n0 128 61946 16\n0 144 61946 16\nok\n";

#[cfg(test)]
mod tests {
    use std::fs;

    use crate::model::MODEL;

    /// The runs that the gate holds the listing program to.
    #[test]
    fn stored_runs_are_the_listings() {
        for program in ["flic_list", "list_nested"] {
            let stored = |file: &str| {
                let path = format!("{}/../crates/{program}/{file}", env!("CARGO_MANIFEST_DIR"));
                fs::read(&path).unwrap_or_else(|error| panic!("{path}: {error}"))
            };
            assert_eq!(MODEL.text(&stored("stdin")).into_bytes(), stored("stdout"), "{program}");
        }
    }
}
