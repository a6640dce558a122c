//! Instructions, counted by callgrind: the same in every run, whatever else the machine does.

use std::ffi::{OsStr, OsString};
use std::process::{Command, Stdio};

/// The instructions of a program from start to end; none where valgrind cannot be run.
pub fn count(program: &OsStr, arguments: &[OsString], input: Stdio) -> Option<u64> {
    let output = Command::new("valgrind")
        .args(["--tool=callgrind", "--callgrind-out-file=/dev/null"])
        .arg(program)
        .args(arguments)
        .stdin(input)
        .stdout(Stdio::null())
        .output()
        .ok()?;
    let told = String::from_utf8_lossy(&output.stderr);
    let (_, number) = told.split_once("Collected : ")?;
    number.split_whitespace().next()?.parse().ok()
}

/// A figure for a column, with so many places, or a dash.
pub fn shown(figure: Option<f64>, places: usize) -> String {
    figure.map_or_else(|| "-".to_string(), |figure| format!("{figure:.places$}"))
}
