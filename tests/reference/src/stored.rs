//! The packs that are kept in files, laid out as the Rattle program `vectors` is run on them.

use crate::generator::{self, Pack};
use crate::pack::MAXIMUM_PACK;
use crate::trace;
use crate::vectors::{
    from_hex, BENCH_CASES, ENHANCED_WORDS, EXAMPLE_PACK, GREY_KEYS, READINGS, REFUSED_CALLS,
    SCANNER, TURNS,
};
use std::collections::BTreeMap;

/// All files of the program's folder by their paths in it: `data/` has the packs, `args` names them
/// in order, a line each, and `stdout` has a line with the name before each pack's text.
pub fn files() -> BTreeMap<String, Vec<u8>> {
    let mut files = BTreeMap::new();
    let (mut args, mut stdout) = (Vec::new(), Vec::new());
    for Stored { name, pack } in stored() {
        let line = format!("{name}\n");
        args.extend_from_slice(line.as_bytes());
        stdout.extend_from_slice(line.as_bytes());
        stdout.extend(trace(&pack));
        files.insert(format!("data/{name}"), pack);
    }
    files.insert("args".to_string(), args);
    files.insert("stdout".to_string(), stdout);
    files
}

struct Stored {
    /// The file's name.
    name: String,
    pack: Vec<u8>,
}

impl Stored {
    fn new(name: &str, pack: Vec<u8>) -> Stored {
        let name = format!("{name}.pack");
        Stored { name, pack }
    }
}

/// The vectors, a pack that is too long, those for grey keys, and some of the generated packs.
fn stored() -> Vec<Stored> {
    let mut stored = vec![Stored::new("example", from_hex(EXAMPLE_PACK))];
    let vectors = READINGS.iter().chain(&BENCH_CASES);
    let vectors = vectors.chain(&REFUSED_CALLS).chain(&ENHANCED_WORDS);
    let vectors = vectors.chain(&GREY_KEYS).chain(&SCANNER).chain(&TURNS);
    stored.extend(vectors.map(|vector| Stored::new(vector.name, vector.bytes())));
    stored.push(Stored::new("over-length", vec![b'P'; MAXIMUM_PACK + 1]));
    let named = |pack: Pack| Stored::new(pack.kind, pack.bytes);
    stored.extend(generator::kept_for_grey_keys().into_iter().map(named));
    stored.extend(kept_of_generated());
    stored
}

/// Small packs kept of each kind, and what counts as small.
const KEPT_OF_A_KIND: usize = 6;
const SMALL: usize = 200;

/// The longest pack kept of a kind that has no small ones.
const LARGE: usize = 4_000;

fn kept_of_generated() -> Vec<Stored> {
    let mut packs = generator::packs();
    packs.sort_by_key(|pack| pack.kind);
    let kinds = packs.chunk_by(|one, other| one.kind == other.kind);
    kinds.flat_map(kept_of_kind).collect()
}

/// Small packs spread evenly over the kind, or else its smallest.
fn kept_of_kind(packs: &[Pack]) -> Vec<Stored> {
    let small: Vec<&Pack> = packs
        .iter()
        .filter(|pack| pack.bytes.len() <= SMALL)
        .collect();
    let step = small.len().div_ceil(KEPT_OF_A_KIND).max(1);
    let mut kept: Vec<&Pack> = small.into_iter().step_by(step).collect();
    if kept.is_empty() {
        let smallest = packs.iter().min_by_key(|pack| pack.bytes.len());
        kept.extend(smallest.filter(|pack| pack.bytes.len() <= LARGE));
    }
    let named = |(place, pack): (usize, &Pack)| {
        let name = format!("{}-{:02}", pack.kind, place + 1);
        Stored::new(&name, pack.bytes.clone())
    };
    kept.into_iter().enumerate().map(named).collect()
}
