//! Runs a program on every generated pack and compares what it prints with the reference.

use reference::generator::{packs, Pack};
use reference::vectors::to_hex;
use reference::{read_event, trace};
use std::ffi::OsStr;
use std::io::{self, Write};
use std::process::{Command, ExitCode, Output, Stdio};
use std::{env, thread};

const LINES_OF_AN_EVENT: usize = 5;

fn main() -> ExitCode {
    let Some(program) = env::args_os().nth(1) else {
        eprintln!("usage: compare PROGRAM [KIND]");
        return ExitCode::from(2);
    };
    let kind = env::args().nth(2);
    let mut count = 0;
    for (number, pack) in packs().iter().enumerate() {
        if kind.as_ref().is_some_and(|kind| kind != pack.kind) {
            continue;
        }
        if let Err(difference) = compare(&program, pack) {
            print_difference(number, pack, &difference);
            return ExitCode::FAILURE;
        }
        count += 1;
    }
    println!("{count} packs agree");
    // A kind that no pack has would otherwise pass unseen.
    ExitCode::from(u8::from(count == 0))
}

/// What differs, and how many events of the pack show it.
struct Difference {
    message: String,
    events: usize,
}

impl Difference {
    fn of_the_whole(message: String) -> Difference {
        let events = usize::MAX;
        Difference { message, events }
    }
}

/// The program must print exactly the reference's text, nothing on standard error, and end well.
fn compare(program: &OsStr, pack: &Pack) -> Result<(), Difference> {
    let output = run(program, &pack.bytes)
        .map_err(|error| Difference::of_the_whole(format!("not run: {error}")))?;
    let expected = trace(&pack.bytes);
    if output.stdout != expected {
        return Err(first_difference(&output.stdout, &expected));
    }
    if !output.stderr.is_empty() {
        let message = String::from_utf8_lossy(&output.stderr);
        let message = format!("standard error is not empty: {message}");
        return Err(Difference::of_the_whole(message));
    }
    if !output.status.success() {
        let message = format!("ended with {}", output.status);
        return Err(Difference::of_the_whole(message));
    }
    Ok(())
}

/// The pack is written from a second thread, since the program may print before it has read all.
fn run(program: &OsStr, pack: &[u8]) -> io::Result<Output> {
    let mut child = Command::new(program)
        .stdin(Stdio::piped())
        .stdout(Stdio::piped())
        .stderr(Stdio::piped())
        .spawn()?;
    let input = child.stdin.take();
    thread::scope(|scope| {
        scope.spawn(move || {
            // A program may stop reading a pack that is too long: its output alone is judged.
            input.map(|mut input| input.write_all(pack).ok())
        });
        child.wait_with_output()
    })
}

/// The first line that differs, as both have it.
fn first_difference(actual: &[u8], expected: &[u8]) -> Difference {
    let mut actual = actual.split_inclusive(|&byte| byte == b'\n');
    let mut expected = expected.split_inclusive(|&byte| byte == b'\n');
    let mut line = 0;
    loop {
        line += 1;
        let (actual, expected) = (actual.next(), expected.next());
        if actual != expected || actual.is_none() {
            let message = format!(
                "line {line}\n  program:   {}\n  reference: {}",
                shown(actual),
                shown(expected)
            );
            let events = usize::div_ceil(line, LINES_OF_AN_EVENT);
            return Difference { message, events };
        }
    }
}

fn shown(line: Option<&[u8]>) -> String {
    match line {
        Some(line) => format!("{:?}", String::from_utf8_lossy(line)),
        None => "(no more lines)".to_string(),
    }
}

fn print_difference(number: usize, pack: &Pack, difference: &Difference) {
    let beginning = beginning(&pack.bytes, difference.events);
    println!(
        "pack {number:04}-{} differs: {}",
        pack.kind, difference.message
    );
    println!(
        "the first {} of its {} bytes:",
        beginning.len(),
        pack.bytes.len()
    );
    println!("{}", to_hex(beginning));
}

/// The first events of a pack; the whole pack if it has not so many.
fn beginning(pack: &[u8], events: usize) -> &[u8] {
    let mut start = 0;
    for _ in 0..events {
        match read_event(pack, start) {
            Ok(Some((_, next))) => start = next,
            _ => return pack,
        }
    }
    &pack[..start]
}
