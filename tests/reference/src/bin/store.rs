//! Writes the kept packs, their names and their texts to the folder of the Rattle program that is
//! run on them, and removes packs there that are no longer kept.

use reference::stored::files;
use std::collections::BTreeMap;
use std::path::Path;
use std::process::ExitCode;
use std::{env, fs, io};

fn main() -> ExitCode {
    let Some(folder) = env::args_os().nth(1) else {
        eprintln!("usage: store FOLDER");
        return ExitCode::from(2);
    };
    match store(Path::new(&folder)) {
        Ok(count) => {
            println!("{count} files stored");
            ExitCode::SUCCESS
        }
        Err(error) => {
            eprintln!("store: {error}");
            ExitCode::FAILURE
        }
    }
}

fn store(folder: &Path) -> io::Result<usize> {
    let files = files();
    fs::create_dir_all(folder.join("data"))?;
    remove_stale(folder, &files)?;
    for (path, bytes) in &files {
        fs::write(folder.join(path), bytes)?;
    }
    Ok(files.len())
}

fn remove_stale(folder: &Path, files: &BTreeMap<String, Vec<u8>>) -> io::Result<()> {
    for entry in fs::read_dir(folder.join("data"))? {
        let name = entry?.file_name().to_string_lossy().into_owned();
        let path = format!("data/{name}");
        if name.ends_with(".pack") && !files.contains_key(&path) {
            fs::remove_file(folder.join(path))?;
        }
    }
    Ok(())
}
