//! The files of the Rattle program `vectors` are exactly what the reference would write today.

use reference::stored::files;
use std::collections::BTreeMap;
use std::fs;
use std::path::Path;

/// The stored files as they are, by their paths in the folder.
fn found(folder: &Path) -> BTreeMap<String, Vec<u8>> {
    let packs = fs::read_dir(folder.join("data")).expect("the stored packs are there");
    let packs = packs.map(|entry| {
        let name = entry.unwrap().file_name().into_string().unwrap();
        format!("data/{name}")
    });
    let paths = packs.chain(["args".to_string(), "stdout".to_string()]);
    let read = |path: String| {
        let bytes = fs::read(folder.join(&path)).unwrap();
        (path, bytes)
    };
    paths.map(read).collect()
}

#[test]
fn stored_files_are_up_to_date() {
    let folder = Path::new(env!("CARGO_MANIFEST_DIR")).join("../../crates/vectors");
    let mut found = found(&folder);
    for (path, bytes) in files() {
        assert!(found.remove(&path) == Some(bytes), "{path} differs");
    }
    let left: Vec<&String> = found.keys().collect();
    assert!(left.is_empty(), "not written by the reference: {left:?}");
}
