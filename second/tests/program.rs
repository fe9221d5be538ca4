//! The binary `second_run`: from a file and from standard input, with stores that it loads and saves.

use second::harness as h;
use std::io::Write;
use std::path::{Path, PathBuf};
use std::process::{Command, Output, Stdio};

fn records() -> Vec<u8> {
    let messages = [
        h::open(3, b"/scan/moreau"),
        h::write(0, 0, b"abc"),
        h::commit(0),
        h::read(0, 1, 9),
        h::close(0),
    ];
    let mut input = Vec::new();
    for message in
        messages
            .iter()
            .map(Vec::as_slice)
            .chain([&[][..], &[0xCF, 0xC2, 0x00, 0x0B], &[0xCF, 0xC2, 0x01, 0x00]])
    {
        input.extend(7u32.to_le_bytes());
        input.push(message.len() as u8);
        input.extend(message);
    }
    input.push(0);
    input
}

fn expected() -> String {
    let open = second::crc::crc(&[0, 0]).to_le_bytes();
    let read = second::crc::crc(b"bc").to_le_bytes();
    format!(
        "00 CFC20002{:02X}{:02X}0000\n00 CFC20004\n00 CFC20005\n00 CFC20003{:02X}{:02X}6263\n00 CFC20006\nC7\nC1\nCC\nCUT\n",
        open[0], open[1], read[0], read[1]
    )
}

#[test]
fn from_standard_input() {
    let mut command = Command::new(env!("CARGO_BIN_EXE_second_run"));
    let mut child = command
        .stdin(Stdio::piped())
        .stdout(Stdio::piped())
        .spawn()
        .expect("the program starts");
    child
        .stdin
        .take()
        .expect("its input")
        .write_all(&records())
        .expect("its input is read");
    let output = child.wait_with_output().expect("the program ends");
    assert!(output.status.success());
    assert_eq!(String::from_utf8_lossy(&output.stdout), expected());
}

#[test]
fn from_a_file() {
    let file = std::path::Path::new(env!("CARGO_TARGET_TMPDIR")).join("records");
    std::fs::write(&file, records()).expect("the records are written");
    let output = Command::new(env!("CARGO_BIN_EXE_second_run"))
        .arg(&file)
        .output()
        .expect("the program runs");
    assert!(output.status.success());
    assert_eq!(String::from_utf8_lossy(&output.stdout), expected());
}

#[test]
fn no_such_file() {
    let output = Command::new(env!("CARGO_BIN_EXE_second_run"))
        .arg("no such file")
        .output()
        .expect("the program runs");
    assert!(!output.status.success());
    assert!(output.stdout.is_empty());
}

// ---- With stores ----

/// What the requests of `records` leave: one scan.
const SAVED: &[u8] = b"\x0A\x06/scan/\x12\x13\x0A\x0C/scan/moreau\x12\x03abc";

/// A directory of its own for a test, empty.
fn directory(name: &str) -> PathBuf {
    let directory = Path::new(env!("CARGO_TARGET_TMPDIR")).join(name);
    let _ = std::fs::remove_dir_all(&directory);
    std::fs::create_dir_all(&directory).expect("a directory");
    directory
}

/// Runs the program in this directory, on this input.
fn run_in(directory: &Path, arguments: &[&str], input: &[u8]) -> Output {
    let mut child = Command::new(env!("CARGO_BIN_EXE_second_run"))
        .args(arguments)
        .current_dir(directory)
        .stdin(Stdio::piped())
        .stdout(Stdio::piped())
        .stderr(Stdio::piped())
        .spawn()
        .expect("the program starts");
    // It may end without reading its input.
    let _ = child.stdin.take().expect("its input").write_all(input);
    child.wait_with_output().expect("the program ends")
}

fn record(message: &[u8]) -> Vec<u8> {
    [&7u32.to_le_bytes()[..], &[message.len() as u8], message].concat()
}

fn names_in(directory: &Path) -> Vec<String> {
    let entries = std::fs::read_dir(directory).expect("the directory is read");
    let names = entries.map(|entry| entry.expect("an entry").file_name());
    let mut names: Vec<String> = names.map(|name| name.to_string_lossy().into_owned()).collect();
    names.sort();
    names
}

#[test]
fn saves_and_loads_again() {
    let directory = directory("saves");
    let saved = run_in(&directory, &["--save", "store"], &records());
    assert!(saved.status.success());
    assert_eq!(String::from_utf8_lossy(&saved.stdout), expected());
    assert_eq!(std::fs::read(directory.join("store")).expect("the store"), SAVED);
    // The new file has got the store's name, so nothing is left beside it.
    assert_eq!(names_in(&directory), ["store"]);
    std::fs::write(directory.join("requests"), record(&h::stat(b"/scan/moreau"))).expect("the requests");
    let stat = second::crc::crc(&[8, 0, 3, 0, 0, 0, 0]).to_le_bytes();
    let line = format!("00 CFC20008{:02X}{:02X}08000300000000\n", stat[0], stat[1]);
    for arguments in [
        &["--load", "store", "requests"][..],
        &["--load", "store", "--save", "again", "requests"],
        &["--save", "again", "--load", "store", "requests"],
        &["--load", "store", "--save", "store", "requests"],
    ] {
        let output = run_in(&directory, arguments, b"");
        assert!(output.status.success());
        assert_eq!(String::from_utf8_lossy(&output.stdout), line);
    }
    let requests = record(&h::stat(b"/scan/moreau"));
    let output = run_in(&directory, &["--load", "store", "-"], &requests);
    assert_eq!(String::from_utf8_lossy(&output.stdout), line);
    assert_eq!(names_in(&directory), ["again", "requests", "store"]);
    assert_eq!(std::fs::read(directory.join("again")).expect("the store"), SAVED);
    assert_eq!(std::fs::read(directory.join("store")).expect("the store"), SAVED);
}

/// A store that is refused: its number is reported, nothing is run and nothing saved.
#[test]
fn refuses_a_store() {
    let directory = directory("refuses");
    for (file, number) in [(&b""[..], "E6"), (b"\x0A", "E4"), (b"\x0A\x06/scan/\x12\x00", "E7")] {
        std::fs::write(directory.join("store"), file).expect("the store");
        let output = run_in(&directory, &["--load", "store", "--save", "new"], &records());
        assert_eq!(output.status.code(), Some(1));
        assert!(output.stdout.is_empty());
        assert_eq!(
            String::from_utf8_lossy(&output.stderr),
            format!("second_run: store: refused, {number}\n")
        );
        assert_eq!(names_in(&directory), ["store"]);
    }
}

/// Where something fails, the old store stays and nothing is left beside it.
#[test]
fn keeps_the_old_store() {
    let directory = directory("keeps");
    std::fs::write(directory.join("store"), b"old").expect("the store");
    std::fs::create_dir(directory.join("taken")).expect("a directory");
    for arguments in [
        &["--load", "no such store", "--save", "store"][..],
        &["--save", "store", "no such file"],
        &["--save", "taken"],
        &["--save", "no such directory/store"],
        &["--save", ".."],
    ] {
        let output = run_in(&directory, arguments, &records());
        assert_eq!(output.status.code(), Some(1), "{arguments:?}");
        assert!(!output.stderr.is_empty());
        assert_eq!(names_in(&directory), ["store", "taken"]);
    }
    assert_eq!(std::fs::read(directory.join("store")).expect("the store"), b"old");
}

#[test]
fn refuses_wrong_arguments() {
    let directory = directory("arguments");
    for arguments in [
        &["--load"][..],
        &["--save"],
        &["--other"],
        &["requests", "more"],
        &["requests", "--save", "store"],
        &["--save", "a", "--save", "b"],
    ] {
        let output = run_in(&directory, arguments, &records());
        assert_eq!(output.status.code(), Some(1), "{arguments:?}");
        assert!(output.stdout.is_empty());
        assert!(String::from_utf8_lossy(&output.stderr).contains("usage"));
        assert!(names_in(&directory).is_empty());
    }
}
