//! The command line.

use std::ffi::OsString;
use std::path::PathBuf;

pub const USAGE: &str =
    "usage: packs write [FILE], or packs explain [--kbdtrace PATH] PACK [TRACE]";

/// Where kbdtrace is, seen from the root of the repository.
pub const KBDTRACE: &str = "target/bin/kbdtrace";

#[derive(Debug, PartialEq, Eq)]
pub enum Command {
    /// The text in a file, or else on standard input, is to become a pack.
    Write(Option<PathBuf>),
    /// The trace of a pack is to be explained.
    Explain(PathBuf, Source),
}

/// Where a trace comes from: a file, or the program that prints it.
#[derive(Debug, PartialEq, Eq)]
pub enum Source {
    File(PathBuf),
    Program(OsString),
}

/// The command, or what is wrong with it.
pub fn command(mut arguments: Vec<OsString>) -> Result<Command, String> {
    let program = option(&mut arguments, "--kbdtrace")?;
    if let Some(unknown) = arguments
        .iter()
        .find(|word| word.as_encoded_bytes().starts_with(b"-"))
    {
        return Err(format!("no option {unknown:?}"));
    }
    match arguments.split_first() {
        Some((verb, _)) if verb == "write" && program.is_some() => {
            Err("write runs no kbdtrace".to_string())
        }
        Some((verb, files)) if verb == "write" => write(files),
        Some((verb, files)) if verb == "explain" => explain(files, program),
        Some((verb, _)) => Err(format!("no verb {verb:?}")),
        None => Err("no verb".to_string()),
    }
}

/// Takes an option out of the arguments, with the word behind it.
fn option(arguments: &mut Vec<OsString>, name: &str) -> Result<Option<OsString>, String> {
    let Some(place) = arguments.iter().position(|word| word == name) else {
        return Ok(None);
    };
    if place + 1 == arguments.len() {
        return Err(format!("{name} needs a path"));
    }
    arguments.remove(place);
    Ok(Some(arguments.remove(place)))
}

fn write(files: &[OsString]) -> Result<Command, String> {
    match files {
        [] => Ok(Command::Write(None)),
        [file] => Ok(Command::Write(Some(file.into()))),
        _ => Err("write takes one file".to_string()),
    }
}

fn explain(files: &[OsString], program: Option<OsString>) -> Result<Command, String> {
    match (files, program) {
        ([pack], program) => {
            let program = program.unwrap_or_else(|| KBDTRACE.into());
            Ok(Command::Explain(pack.into(), Source::Program(program)))
        }
        ([pack, trace], None) => Ok(Command::Explain(pack.into(), Source::File(trace.into()))),
        ([_, _], Some(_)) => Err("with a trace, explain runs no kbdtrace".to_string()),
        _ => Err("explain takes a pack and perhaps its trace".to_string()),
    }
}

#[cfg(test)]
mod tests {
    use super::*;

    fn read(words: &str) -> Result<Command, String> {
        command(words.split_whitespace().map(OsString::from).collect())
    }

    fn explained(source: Source) -> Result<Command, String> {
        Ok(Command::Explain("a.pack".into(), source))
    }

    #[test]
    fn two_verbs_are_read() {
        assert_eq!(read("write"), Ok(Command::Write(None)));
        assert_eq!(read("write a"), Ok(Command::Write(Some("a".into()))));
        let default = Source::Program(KBDTRACE.into());
        assert_eq!(read("explain a.pack"), explained(default));
        assert_eq!(
            read("explain a.pack a.txt"),
            explained(Source::File("a.txt".into()))
        );
        for words in ["explain --kbdtrace k a.pack", "explain a.pack --kbdtrace k"] {
            assert_eq!(read(words), explained(Source::Program("k".into())));
        }
    }

    #[test]
    fn all_else_is_told() {
        let wrong = [
            "",
            "read",
            "Write",
            "-h",
            "write a b",
            "write --kbdtrace k",
            "explain",
            "explain a b c",
            "explain a --kbdtrace",
            "explain --kbdtrace k a b",
            "explain --kbdtrace k --kbdtrace k a",
            "explain --trace a",
        ];
        for words in wrong {
            let told = read(words).unwrap_err();
            assert!(!told.contains('\n'), "{words}: {told}");
        }
    }
}
