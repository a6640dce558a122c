//! Loads that wait, counted by lackey's trace of every load and store: the same in every run.
//!
//! A processor hands a load what a store before it wrote, if that one store wrote all that the load
//! wants. Where it wrote only a part, the load waits until the store has reached the cache.

use std::collections::HashMap;
use std::ffi::{OsStr, OsString};
use std::io::{BufRead, BufReader};
use std::process::{Command, Stdio};

/// A store this many instructions back has reached the cache.
const RECENT: u64 = 60;

/// The newest store to a byte: the bytes that it wrote, and when, by stores and by instructions.
#[derive(Clone, Copy)]
struct Store {
    number: u64,
    first: u64,
    end: u64,
    instruction: u64,
}

/// What is known of memory as the trace goes on.
#[derive(Default)]
struct Memory {
    stores: HashMap<u64, Store>,
    number: u64,
    instruction: u64,
    waits: u64,
}

impl Memory {
    fn load(&mut self, first: u64, end: u64) {
        let stored = (first..end).filter_map(|byte| self.stores.get(&byte));
        let recent = stored.filter(|store| self.instruction - store.instruction < RECENT);
        let newest = recent.max_by_key(|store| store.number);
        self.waits += u64::from(newest.is_some_and(|store| first < store.first || store.end < end));
    }

    fn store(&mut self, first: u64, end: u64) {
        self.number += 1;
        let store = Store {
            number: self.number,
            first,
            end,
            instruction: self.instruction,
        };
        self.stores.extend((first..end).map(|byte| (byte, store)));
    }

    /// A line of the trace: `I`, `L`, `S` or `M` (load and store), the address in hexadecimal, the bytes.
    fn follow(&mut self, line: &str) -> Option<()> {
        let (kind, place) = line.trim_start().split_once(' ')?;
        let (address, bytes) = place.trim().split_once(',')?;
        let first = u64::from_str_radix(address, 16).ok()?;
        let end = first + bytes.parse::<u64>().ok()?;
        self.instruction += u64::from(kind == "I");
        if kind == "L" || kind == "M" {
            self.load(first, end);
        }
        if kind == "S" || kind == "M" {
            self.store(first, end);
        }
        Some(())
    }
}

/// The loads of a program that wait, from start to end; none where valgrind cannot be run.
pub fn count(program: &OsStr, arguments: &[OsString]) -> Option<u64> {
    let mut traced = Command::new("valgrind")
        .args(["--tool=lackey", "--trace-mem=yes"])
        .arg(program)
        .args(arguments)
        .stdin(Stdio::null())
        .stdout(Stdio::null())
        .stderr(Stdio::piped())
        .spawn()
        .ok()?;
    let mut memory = Memory::default();
    for line in BufReader::new(traced.stderr.take()?).lines() {
        memory.follow(&line.ok()?);
    }
    traced.wait().ok()?.success().then_some(memory.waits)
}
