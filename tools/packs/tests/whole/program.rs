//! The program from outside: what it prints, where, and its exit status.

use crate::files::{bytes, text};
use std::fs;
use std::path::{Path, PathBuf};
use std::process::{Command, Output};

/// Runs the program with the root of the repository as its folder, and nothing on standard input.
fn packs(arguments: &[&str]) -> Output {
    let root = Path::new(env!("CARGO_MANIFEST_DIR")).join("../..");
    let mut program = Command::new(env!("CARGO_BIN_EXE_packs"));
    program.args(arguments).current_dir(root).output().unwrap()
}

/// A file for one test, by its own name.
fn written(name: &str, content: &[u8]) -> PathBuf {
    let file = Path::new(env!("CARGO_TARGET_TMPDIR")).join(name);
    fs::write(&file, content).unwrap();
    file
}

/// The one line on standard error, where there is nothing on standard output.
fn told(output: &Output, status: i32) -> String {
    assert_eq!(output.status.code(), Some(status));
    assert!(output.stdout.is_empty());
    let told = String::from_utf8(output.stderr.clone()).unwrap();
    assert_eq!(told.lines().count(), 1, "{told}");
    told
}

#[test]
fn a_pack_is_written_and_explained() {
    let output = packs(&["write", "samples/shift-a.events"]);
    assert_eq!(output.stdout, bytes("samples/shift-a.pack"));
    assert!(output.status.success() && output.stderr.is_empty());

    let output = packs(&["explain", "samples/shift-a.pack", "samples/shift-a.txt"]);
    let explained = text("samples/shift-a.explained");
    assert_eq!(String::from_utf8(output.stdout).unwrap(), explained);
    assert!(output.status.success() && output.stderr.is_empty());
}

#[test]
fn standard_input_is_read_without_a_file() {
    let output = packs(&["write"]);
    assert!(output.status.success() && output.stdout.is_empty());
}

#[test]
fn a_text_with_a_fault_writes_nothing() {
    let file = written("fault.events", b"key 2A\nkey 1E 9\npoll\n");
    let told = told(&packs(&["write", file.to_str().unwrap()]), 1);
    assert!(told.starts_with("packs: line 2, column 8: "), "{told}");
}

#[test]
fn a_pack_too_long_is_not_written() {
    let file = written("long.events", "restart\n".repeat(32_769).as_bytes());
    let told = told(&packs(&["write", file.to_str().unwrap()]), 1);
    assert!(told.starts_with("packs: line 32769, column 1: "), "{told}");
}

#[test]
fn a_trace_that_does_not_fit_explains_nothing() {
    let output = packs(&["explain", "samples/shift-a.pack", "samples/pause-cut.txt"]);
    let told = told(&output, 1);
    let expected = "packs: line 16 of the trace: the trace has 4 events, but the pack has 3\n";
    assert_eq!(told, expected);
}

#[test]
fn a_file_or_program_that_is_not_there_is_told() {
    assert!(told(&packs(&["write", "no/such.events"]), 1).contains("no/such.events"));
    assert!(told(&packs(&["explain", "no/such.pack"]), 1).contains("no/such.pack"));
    let arguments = [
        "explain",
        "--kbdtrace",
        "no/kbdtrace",
        "samples/shift-a.pack",
    ];
    assert!(told(&packs(&arguments), 1).contains("no/kbdtrace"));
}

#[test]
fn a_program_given_is_run() {
    // It prints the pack itself, which is no trace.
    let arguments = ["explain", "--kbdtrace", "cat", "samples/shift-a.pack"];
    assert!(told(&packs(&arguments), 1).contains("line 1 of the trace"));
}

#[test]
fn a_wrong_command_shows_the_usage() {
    for arguments in [
        &[] as &[&str],
        &["read"],
        &["explain"],
        &["write", "a", "b"],
    ] {
        assert!(told(&packs(arguments), 2).contains("usage: packs write"));
    }
}
