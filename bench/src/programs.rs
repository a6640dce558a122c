//! The time of a whole process on a pack: kbdtrace, and the reference's program. An exported call cannot take a service by value, so the
//! speed by value is what kbdtrace shows: the time of a pack full of events less that of an empty one.

use crate::instructions::{count, shown};
use crate::rounds::take_turns;
use reference::generator::{random_events, Flavour, Random, Writer};
use reference::{trace, MAXIMUM_PACK};
use std::ffi::OsStr;
use std::fs::{self, File};
use std::io;
use std::path::PathBuf;
use std::process::{Command, Stdio};
use std::time::Duration;
use std::{env, process};

const RUNS: usize = 301;

pub fn measure(proved: &OsStr, reference: &OsStr) -> io::Result<()> {
    println!(
        "\nPrograms: kbdtrace and reference-trace from start to end, the text thrown away; \
         medians of {RUNS} runs"
    );
    println!("  pack                                    proved ms   reference ms   ratio   million instructions: proved   reference");
    let mut measured = Vec::new();
    for (name, pack) in packs() {
        let file = PackFile::new(&pack)?;
        for program in [proved, reference] {
            let output = Command::new(program).stdin(file.open()?).output()?;
            assert!(output.stdout == trace(&pack), "both print the same");
        }
        let medians = take_turns(
            RUNS,
            || run(proved, &file).expect("it ran before"),
            || run(reference, &file).expect("it ran before"),
        );
        let instructions = |program| -> io::Result<String> {
            let counted = count(program, &[], file.open()?.into());
            Ok(shown(counted.map(|counted| counted as f64 / 1e6), 1))
        };
        println!(
            "  {name:38} {:>10.3} {:>14.3} {:>7.2} {:>30} {:>11}",
            medians.proved.as_secs_f64() * 1e3,
            medians.reference.as_secs_f64() * 1e3,
            medians.ratio(),
            instructions(proved)?,
            instructions(reference)?,
        );
        measured.push(medians);
    }
    let [full, _, empty] = &measured[..] else {
        unreachable!("there are three packs");
    };
    println!(
        "  by value, reported, without start and end: {:.1} M/s proved, {:.1} M/s reference",
        millions(full.proved, empty.proved),
        millions(full.reference, empty.reference)
    );
    Ok(())
}

/// Millions of events a second between an empty pack and one of as many events as it has bytes.
fn millions(full: Duration, empty: Duration) -> f64 {
    MAXIMUM_PACK as f64 / full.saturating_sub(empty).as_secs_f64() / 1e6
}

/// The most events that fit into a pack, one pack full of keys, and none.
fn packs() -> [(&'static str, Vec<u8>); 3] {
    let mut random = Random::new(1);
    let short = (0..MAXIMUM_PACK).map(|_| random.pick(b"PTER")).collect();
    let mut keys = Writer::new();
    keys.events(&random_events(&mut random, Flavour::Keys, MAXIMUM_PACK));
    let mut keys = keys.into_bytes();
    keys.truncate(MAXIMUM_PACK);
    [
        ("32768 events of one byte, P T E R", short),
        ("32768 bytes of events, mostly keys", keys),
        ("no event: start and end alone", Vec::new()),
    ]
}

fn run(program: &OsStr, pack: &PackFile) -> io::Result<()> {
    let mut command = Command::new(program);
    let status = command.stdin(pack.open()?).stdout(Stdio::null()).status()?;
    assert!(status.success(), "it ends well");
    Ok(())
}

/// A pack in a file of its own, which goes when this goes.
struct PackFile {
    path: PathBuf,
}

impl PackFile {
    fn new(pack: &[u8]) -> io::Result<PackFile> {
        let path = env::temp_dir().join(format!("speed-{}.pack", process::id()));
        fs::write(&path, pack)?;
        Ok(PackFile { path })
    }

    fn open(&self) -> io::Result<File> {
        File::open(&self.path)
    }
}

impl Drop for PackFile {
    fn drop(&mut self) {
        // A file left behind does no harm.
        fs::remove_file(&self.path).ok();
    }
}
