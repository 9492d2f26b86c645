//! A difference that the stand-in hasher hides from the runs: `Tag::hash` of the Rust sets no border between a value and the next
//! key, so that under a hasher that joins what is written two unlike lists of tags are one key.
use std::hash::{Hash, Hasher};

use metricsql_runtime::Tag;

#[derive(Default)]
struct Joined(Vec<u8>);

impl Hasher for Joined {
    fn write(&mut self, bytes: &[u8]) {
        self.0.extend_from_slice(bytes);
    }

    fn finish(&self) -> u64 {
        0
    }
}

fn written(tags: &[(&str, &str)]) -> Vec<u8> {
    let mut hasher = Joined::default();
    for (key, value) in tags {
        Tag { key: key.to_string(), value: value.to_string() }.hash(&mut hasher);
    }
    hasher.0
}

#[test]
fn unlike_tags_write_the_same_bytes() {
    assert_eq!(written(&[("a", "x"), ("b", "")]), written(&[("a", ""), ("xb", "")]));
}
