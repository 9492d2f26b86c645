//! The stored sample is what the program makes.
use std::fs;
use std::path::Path;

use oracle::sample::{binary, chosen, text};

#[test]
fn stored_sample_is_made_again() {
    let folder = Path::new(env!("CARGO_MANIFEST_DIR")).join("../sample");
    let cases = chosen();
    assert!(fs::read_to_string(folder.join("cases.txt")).expect("the sample") == text(&cases));
    assert!(fs::read(folder.join("cases.bin")).expect("the sample") == binary(&cases));
}
