//! Files of the repository, by their paths from its root.

use std::collections::{BTreeMap, BTreeSet};
use std::fs;
use std::path::{Path, PathBuf};

fn path(name: &str) -> PathBuf {
    Path::new(env!("CARGO_MANIFEST_DIR"))
        .join("../..")
        .join(name)
}

pub fn bytes(name: &str) -> Vec<u8> {
    fs::read(path(name)).unwrap_or_else(|error| panic!("{name}: {error}"))
}

pub fn text(name: &str) -> String {
    String::from_utf8(bytes(name)).unwrap()
}

/// The names of the samples; each must have its four files, and nothing else may lie there.
pub fn samples() -> Vec<String> {
    let mut endings: BTreeMap<String, BTreeSet<String>> = BTreeMap::new();
    for entry in fs::read_dir(path("samples")).unwrap() {
        let file = entry.unwrap().file_name().into_string().unwrap();
        let (name, ending) = file.split_once('.').unwrap();
        endings
            .entry(name.into())
            .or_default()
            .insert(ending.into());
    }
    let expected = ["events", "explained", "pack", "txt"].map(String::from);
    for (name, endings) in &endings {
        assert!(endings.iter().eq(&expected), "{name} has {endings:?}");
    }
    assert!(!endings.is_empty(), "there is a sample");
    endings.into_keys().collect()
}
