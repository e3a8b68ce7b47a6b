//! What the tool needs of files beyond the standard library, through the system's C library.

use std::io::{Error, Result};
use std::os::fd::{AsFd, AsRawFd};

extern "C" {
    fn syncfs(file: i32) -> i32;
}

/// Waits until everything that was written to the file system of a file or directory is on its disk.
pub fn sync_around(file: &impl AsFd) -> Result<()> {
    // SAFETY: the file is open while it is lent.
    match unsafe { syncfs(file.as_fd().as_raw_fd()) } {
        0 => Ok(()),
        _ => Err(Error::last_os_error()),
    }
}

#[cfg(test)]
mod tests {
    use super::*;
    use std::fs::File;

    #[test]
    fn a_directory_can_be_synced() {
        sync_around(&File::open(".").unwrap()).unwrap();
    }
}
