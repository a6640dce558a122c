//! `packs write` makes a pack of text; `packs explain` tells what its trace says.

use packs::arguments::{command, Command, Source, USAGE};
use packs::{explain, tracer, write};
use std::io::{self, Read, Write};
use std::path::Path;
use std::process::ExitCode;
use std::{env, fs};

fn main() -> ExitCode {
    let command = match command(env::args_os().skip(1).collect()) {
        Ok(command) => command,
        Err(wrong) => {
            eprintln!("packs: {wrong}; {USAGE}");
            return ExitCode::from(2);
        }
    };
    match run(command).and_then(|output| print(&output)) {
        Ok(()) => ExitCode::SUCCESS,
        Err(message) => {
            eprintln!("packs: {message}");
            ExitCode::FAILURE
        }
    }
}

/// All that goes to standard output, or why nothing does.
fn run(command: Command) -> Result<Vec<u8>, String> {
    match command {
        Command::Write(file) => {
            let text = match file {
                Some(file) => read(&file)?,
                None => read_input()?,
            };
            write(&String::from_utf8_lossy(&text)).map_err(|fault| fault.to_string())
        }
        Command::Explain(pack, source) => {
            let pack = read(&pack)?;
            let trace = match source {
                Source::File(file) => read(&file)?,
                Source::Program(program) => tracer::trace(&program, &pack)?,
            };
            explain(&pack, &String::from_utf8_lossy(&trace)).map(String::into_bytes)
        }
    }
}

fn read(file: &Path) -> Result<Vec<u8>, String> {
    fs::read(file).map_err(|error| format!("{}: {error}", file.display()))
}

fn read_input() -> Result<Vec<u8>, String> {
    let mut text = Vec::new();
    match io::stdin().read_to_end(&mut text) {
        Ok(_) => Ok(text),
        Err(error) => Err(format!("standard input: {error}")),
    }
}

fn print(output: &[u8]) -> Result<(), String> {
    let mut stdout = io::stdout();
    let printed = stdout.write_all(output).and_then(|()| stdout.flush());
    printed.map_err(|error| format!("standard output: {error}"))
}
