//! The samples that the documents show: each pack has the trace that stands beside it.

use reference::trace;
use std::fs;
use std::path::Path;

#[test]
fn samples_have_their_traces() {
    let folder = Path::new(env!("CARGO_MANIFEST_DIR")).join("../../samples");
    let entries = fs::read_dir(folder).expect("the samples are there");
    let paths = entries.map(|entry| entry.unwrap().path());
    let is_pack = |path: &Path| path.extension().is_some_and(|ending| ending == "pack");
    let packs: Vec<_> = paths.filter(|path| is_pack(path)).collect();
    assert!(!packs.is_empty(), "there is a sample");
    for path in packs {
        let expected = String::from_utf8(trace(&fs::read(&path).unwrap())).unwrap();
        let found = fs::read_to_string(path.with_extension("txt")).unwrap();
        assert_eq!(found, expected, "{}", path.display());
    }
}
