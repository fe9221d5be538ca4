//! `second_run [--load STORE] [--save STORE] [FILE]`: the program (section 20 of docs/PROTOCOL.md), on the requests in
//! FILE, or on standard input without one or for `-`.
//!
//! It begins with the saved store that `--load` names, and saves the committed store at the end where `--save` says
//! (reading 32).

use second::run::{on_fresh_memory, run};
use second::store_file::{load, save};
use second::Memory;
use std::ffi::OsString;
use std::fs::{self, File};
use std::io::{self, Read, Write};
use std::path::{Path, PathBuf};
use std::process::ExitCode;

const USAGE: &str = "usage: second_run [--load STORE] [--save STORE] [FILE]";

#[derive(Default)]
struct Options {
    load: Option<PathBuf>,
    save: Option<PathBuf>,
    file: Option<PathBuf>,
}

fn main() -> ExitCode {
    let options = options(std::env::args_os().skip(1));
    match options.and_then(|options| on_fresh_memory(|memory| program(&options, memory))) {
        Ok(()) => ExitCode::SUCCESS,
        Err(problem) => {
            eprintln!("second_run: {problem}");
            ExitCode::FAILURE
        }
    }
}

/// The options in any order, each once at most, then the file of requests.
fn options(mut arguments: impl Iterator<Item = OsString>) -> Result<Options, String> {
    let mut options = Options::default();
    while let Some(argument) = arguments.next() {
        let named = match argument.to_str() {
            _ if options.file.is_some() => return Err(USAGE.to_string()),
            Some("--load") => &mut options.load,
            Some("--save") => &mut options.save,
            Some(other) if other.starts_with("--") => return Err(USAGE.to_string()),
            _ => {
                options.file = Some(argument.into());
                continue;
            }
        };
        if named.is_some() {
            return Err(USAGE.to_string());
        }
        *named = Some(arguments.next().ok_or(USAGE)?.into());
    }
    Ok(options)
}

fn program(options: &Options, memory: &mut Memory) -> Result<(), String> {
    if let Some(store) = &options.load {
        load_store(store, memory)?;
    }
    let lines = run(&read_input(options.file.as_deref())?, memory);
    io::stdout()
        .write_all(lines.as_bytes())
        .map_err(|problem| format!("standard output: {problem}"))?;
    match &options.save {
        Some(store) => save_store(store, memory).map_err(about(store)),
        None => Ok(()),
    }
}

/// Says which file a problem is about.
fn about(file: &Path) -> impl Fn(io::Error) -> String + '_ {
    move |problem| format!("{}: {problem}", file.display())
}

fn load_store(store: &Path, memory: &mut Memory) -> Result<(), String> {
    let file = fs::read(store).map_err(about(store))?;
    match load(&file, memory) {
        0 => Ok(()),
        code => Err(format!("{}: refused, {code:02X}", store.display())),
    }
}

fn read_input(file: Option<&Path>) -> Result<Vec<u8>, String> {
    match file {
        Some(file) if file != Path::new("-") => fs::read(file).map_err(about(file)),
        _ => {
            let mut input = Vec::new();
            io::stdin()
                .read_to_end(&mut input)
                .map_err(|problem| format!("standard input: {problem}"))?;
            Ok(input)
        }
    }
}

/// The store is written whole to a new file beside the old one and takes its name only then, so that whatever goes
/// wrong leaves the old one as it was.
fn save_store(store: &Path, memory: &Memory) -> io::Result<()> {
    let bytes = save(memory).ok_or_else(|| io::Error::other("the state is not sound"))?;
    let beside = beside(store)?;
    let mut file = File::create_new(&beside)?;
    let written = file.write_all(&bytes).and_then(|()| file.sync_all());
    let renamed = written.and_then(|()| fs::rename(&beside, store));
    if renamed.is_err() {
        let _ = fs::remove_file(&beside);
    }
    renamed
}

/// A name in the same directory that no other running program takes.
fn beside(store: &Path) -> io::Result<PathBuf> {
    let name = store
        .file_name()
        .ok_or_else(|| io::Error::new(io::ErrorKind::InvalidInput, "this names no file"))?;
    let mut new = name.to_os_string();
    new.push(format!(".new{}", std::process::id()));
    Ok(store.with_file_name(new))
}
