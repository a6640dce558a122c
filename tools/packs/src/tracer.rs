//! The program kbdtrace, run on a pack.

use crate::arguments::KBDTRACE;
use std::ffi::OsStr;
use std::io::{self, Write};
use std::process::{Command, Output, Stdio};
use std::thread;

/// The trace that the program prints; in words if it prints none.
pub fn trace(program: &OsStr, pack: &[u8]) -> Result<Vec<u8>, String> {
    let name = program.to_string_lossy();
    let output = run(program, pack).map_err(|error| {
        format!("{name} does not run: {error} (`make` makes {KBDTRACE})")
    })?;
    if !output.status.success() {
        return Err(format!("{name} ended with {}", output.status));
    }
    Ok(output.stdout)
}

/// The pack is written from a second thread: the program may print before it has read all of it.
fn run(program: &OsStr, pack: &[u8]) -> io::Result<Output> {
    let mut child = Command::new(program)
        .stdin(Stdio::piped())
        .stdout(Stdio::piped())
        .spawn()?;
    let input = child.stdin.take();
    thread::scope(|scope| {
        // A program that stops reading is judged by what it prints.
        scope.spawn(move || input.map(|mut input| input.write_all(pack).ok()));
        child.wait_with_output()
    })
}

#[cfg(test)]
mod tests {
    use super::*;

    #[test]
    fn a_program_gets_the_pack_whole() {
        let pack = vec![b'P'; 1_000_000];
        assert_eq!(trace(OsStr::new("cat"), &pack), Ok(pack));
    }

    #[test]
    fn a_program_that_fails_is_told() {
        let told = trace(OsStr::new("false"), b"").unwrap_err();
        assert!(told.starts_with("false ended with "), "{told}");
        let told = trace(OsStr::new("./no-program"), b"").unwrap_err();
        assert!(told.starts_with("./no-program does not run: "), "{told}");
    }
}
