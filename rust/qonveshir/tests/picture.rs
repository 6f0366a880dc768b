//! The picture of the README is what the library answers now.

use std::{fs, path::Path};

#[path = "../examples/picture.rs"]
mod picture;

#[test]
fn the_picture_shows_the_answer() {
    let stored = Path::new(env!("CARGO_MANIFEST_DIR")).join("../../docs/match.svg");
    assert_eq!(fs::read_to_string(stored).unwrap(), picture::svg());
}
