//! The stored files against those that are made from the crate now.

use compare::samples::files;

/// Every file, and their size.
#[test]
fn the_stored_samples_are_the_crates() {
    let files = files();
    let size: usize = files.iter().map(|file| file.bytes.len()).sum();
    assert!(size < 1_000_000);
    for file in files {
        let stored = file.stored().expect("the sample is read");
        let name = file.name;
        assert!(
            stored == file.bytes,
            "{name}: `samples write` writes it anew"
        );
    }
}
