//! Traces are explained as the programs print them, and in no other form.

use crate::files::{bytes, samples, text};
use packs::explain;

/// The stored packs with their traces, as the Rattle program `vectors` prints them: a line with the
/// pack's name before each trace.
fn stored() -> Vec<(String, Vec<u8>, String)> {
    let names = text("crates/vectors/args");
    let printed = text("crates/vectors/stdout");
    let mut rest = printed.as_str();
    let mut stored = Vec::new();
    for name in names.lines() {
        let trace = rest.strip_prefix(&format!("{name}\n")).unwrap();
        let last_line = trace.find("refused=").unwrap();
        let (trace, after) = trace.split_at(last_line + "refused=0\n".len());
        let pack = bytes(&format!("crates/vectors/data/{name}"));
        stored.push((name.to_string(), pack, trace.to_string()));
        rest = after;
    }
    assert_eq!(rest, "");
    stored
}

#[test]
fn every_stored_trace_is_explained() {
    for (name, pack, trace) in stored() {
        let explained = explain(&pack, &trace).unwrap_or_else(|told| panic!("{name}: {told}"));
        let events = trace.lines().filter(|line| line.starts_with("ev=")).count();
        assert_eq!(explained.lines().count(), events + 2, "{name}");
        let longest = explained.lines().map(str::len).max().unwrap();
        assert!(longest <= 120, "{name}: a line of {longest}");
    }
}

/// Hands every sample to a check: its name, pack and trace.
fn each_sample(check: impl Fn(&str, &[u8], &str)) {
    for name in samples() {
        let pack = bytes(&format!("samples/{name}.pack"));
        check(&name, &pack, &text(&format!("samples/{name}.txt")));
    }
}

#[test]
fn one_changed_byte_is_refused() {
    each_sample(|name, pack, trace| {
        for place in 0..trace.len() {
            let changed = [&trace[..place], "?", &trace[place + 1..]].concat();
            let line = trace[..place].lines().count().max(1);
            let told = explain(pack, &changed).unwrap_err();
            let number = told.split(' ').nth(1).unwrap().parse::<usize>().unwrap();
            assert!(number.abs_diff(line) <= 1, "{name}, byte {place}: {told}");
        }
    });
}

#[test]
fn a_cut_trace_is_refused() {
    each_sample(|name, pack, trace| {
        for place in 0..trace.len() {
            let told = explain(pack, &trace[..place]);
            assert!(told.is_err(), "{name}, cut at {place}");
        }
    });
}

#[test]
fn a_missing_or_doubled_line_is_refused() {
    each_sample(|name, pack, trace| {
        let lines: Vec<&str> = trace.split_inclusive('\n').collect();
        for place in 0..lines.len() {
            let missing = [&lines[..place], &lines[place + 1..]].concat().concat();
            let doubled = [&lines[..place], &lines[place..=place], &lines[place..]]
                .concat()
                .concat();
            for changed in [missing, doubled] {
                assert!(
                    explain(pack, &changed).is_err(),
                    "{name}, line {}",
                    place + 1
                );
            }
        }
    });
}

#[test]
fn the_trace_of_another_pack_is_refused() {
    each_sample(|name, pack, trace| {
        for longer in [b"P".as_slice(), b"K", b"X"] {
            let told = explain(&[pack, longer].concat(), trace);
            // Behind a refused event nothing is read, so nothing there can be missed.
            assert_eq!(told.is_ok(), name == "refused", "{name}");
        }
        assert!(explain(&pack[1..], trace).is_err(), "{name}");
    });
}
