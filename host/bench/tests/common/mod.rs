//! What the tests of the command share: running it, golden files, state files and images.

#![allow(dead_code)]

pub mod elf;
pub mod state;
pub mod words;

use serde_json::Value;
use std::path::{Path, PathBuf};
use std::process::{Command, Output};

/// What the command wrote, and its exit status.
pub struct Answer {
    pub status: i32,
    pub out: String,
    pub err: String,
}

impl Answer {
    pub fn json(&self) -> Value {
        serde_json::from_str(&self.out).expect("JSON on standard output")
    }

    /// All of it as one text, for a golden file.
    pub fn text(&self) -> String {
        format!("{}{}status {}\n", self.out, self.err, self.status)
    }
}

/// Runs the command in a directory.
pub fn bench_in(directory: &Path, arguments: &[&str]) -> Answer {
    let output = Command::new(env!("CARGO_BIN_EXE_bench"))
        .args(arguments)
        .current_dir(directory)
        .output()
        .expect("the command runs");
    answer(output)
}

fn answer(output: Output) -> Answer {
    Answer {
        status: output.status.code().expect("the command ends by itself"),
        out: String::from_utf8(output.stdout).expect("text"),
        err: String::from_utf8(output.stderr).expect("text"),
    }
}

/// Runs a line of bash in a directory, where $BENCH is the command, within 20 seconds.
pub fn shell_in(directory: &Path, line: &str) -> Answer {
    let output = Command::new("timeout")
        .args(["20", "bash", "-c", line])
        .env("BENCH", env!("CARGO_BIN_EXE_bench"))
        .current_dir(directory)
        .output()
        .expect("bash runs");
    answer(output)
}

/// An empty directory for a test.
pub fn directory(name: &str) -> PathBuf {
    let directory = Path::new(env!("CARGO_TARGET_TMPDIR")).join(name);
    let _ = std::fs::remove_dir_all(&directory);
    std::fs::create_dir_all(&directory).expect("a directory");
    directory
}

/// The names of what lies in a directory, in order.
pub fn names_in(directory: &Path) -> Vec<String> {
    let entries = std::fs::read_dir(directory).expect("a directory");
    let names = entries.map(|entry| entry.expect("an entry").file_name());
    let mut names: Vec<String> = names
        .map(|name| name.into_string().expect("a name"))
        .collect();
    names.sort();
    names
}

/// Where the demonstration is.
pub fn examples() -> PathBuf {
    Path::new(env!("CARGO_MANIFEST_DIR")).join("../../examples")
}

/// A run of the demonstration on the small board, from that folder.
pub const SMALL: [&str; 5] = [
    "run",
    "--map",
    "interlock_small.map",
    "interlock_small.hex",
    "interlock_image.hex",
];

/// Compares a text with its golden file; with BENCH_GOLDEN=write, writes it.
pub fn golden(name: &str, text: &str) {
    let golden = Path::new(env!("CARGO_MANIFEST_DIR")).join("tests/golden");
    let path = golden.join(format!("{name}.txt"));
    if std::env::var_os("BENCH_GOLDEN").is_some_and(|value| value == "write") {
        std::fs::write(&path, text).expect("the golden file is written");
    }
    let expected = std::fs::read_to_string(&path).unwrap_or_default();
    let differing = text.lines().zip(expected.lines()).find(|(a, b)| a != b);
    assert!(
        text == expected,
        "{name} differs from its golden file: {differing:?}\n{text}"
    );
}

/// The bytes that the command assembles of a listing, its fields parted by spaces and its lines by semicolons here.
pub fn assembled(directory: &Path, listing: &str) -> Vec<u8> {
    let lines = listing
        .split("; ")
        .map(|line| line.trim().replace(' ', "\t") + "\n");
    std::fs::write(directory.join("listing"), lines.collect::<String>()).expect("a listing");
    let answer = bench_in(directory, &["assemble", "listing", "-o", "assembled"]);
    assert_eq!(answer.status, 0, "{}", answer.err);
    std::fs::read(directory.join("assembled")).expect("the bytes")
}

/// Bytes with one of them changed.
pub fn changed(bytes: &[u8], place: usize, from: u8, to: u8) -> Vec<u8> {
    let mut changed = bytes.to_vec();
    assert_eq!(changed[place], from, "the byte that is changed");
    changed[place] = to;
    changed
}

/// A sheet of regions, each a name, start, length and rights parted by spaces.
pub fn sheet(regions: &[&str]) -> String {
    let line = |region: &&str| format!("region\t{}\n", region.replace(' ', "\t"));
    regions.iter().map(line).collect()
}
