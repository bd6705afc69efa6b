//! Saved states: whole or not at all, and nothing is lost with one that cannot be saved.

mod common;

use common::state::{text, with_code};
use common::words::{addi, EBREAK};
use common::{bench_in, directory, names_in, shell_in, Answer};
use std::path::{Path, PathBuf};

/// A directory with a state file, `start`, of more than 1,024 bytes.
fn with_start(name: &str) -> PathBuf {
    let directory = directory(name);
    let mut state = with_code(&[addi(10, 0, 42), EBREAK]);
    state.mem[8..].fill(7);
    let text = text(&state);
    assert!(text.len() > 1_024);
    std::fs::write(directory.join("start"), text).unwrap();
    directory
}

fn saved_to(directory: &Path, place: &str) -> Answer {
    bench_in(directory, &["run", "--state", "start", "--save", place])
}

#[test]
fn a_saved_state_replaces_a_file_and_leaves_nothing_else() {
    let directory = with_start("saved");
    std::fs::write(directory.join("end"), "old").unwrap();
    assert_eq!(saved_to(&directory, "end").status, 1);
    let saved = std::fs::read_to_string(directory.join("end")).unwrap();
    assert!(saved.contains("\nc10 0000002a "), "{saved}");
    assert_eq!(names_in(&directory), ["end", "start"]);
}

#[test]
fn a_link_stays_a_link() {
    let directory = with_start("saved_link");
    std::fs::write(directory.join("end"), "old").unwrap();
    std::os::unix::fs::symlink("end", directory.join("link")).unwrap();
    assert_eq!(saved_to(&directory, "link").status, 1);
    let link = std::fs::symlink_metadata(directory.join("link")).unwrap();
    assert!(link.is_symlink());
    let saved = std::fs::read_to_string(directory.join("end")).unwrap();
    assert!(saved.starts_with("oddersnow state 4\n"), "{saved}");
    assert_eq!(names_in(&directory), ["end", "link", "start"]);
}

#[test]
fn what_is_no_regular_file_is_not_replaced() {
    let directory = with_start("saved_socket");
    let _socket = std::os::unix::net::UnixListener::bind(directory.join("end")).unwrap();
    std::fs::create_dir(directory.join("folder")).unwrap();
    for place in ["end", "folder"] {
        let answer = saved_to(&directory, place);
        assert_eq!((answer.status, answer.out.as_str()), (3, ""), "{place}");
        let reason = format!("bench: {place}: what is there is no regular file\n");
        assert_eq!(answer.err, reason);
    }
    assert!(!directory.join("end").is_file());
    assert_eq!(names_in(&directory), ["end", "folder", "start"]);
}

#[test]
fn an_image_is_not_written_over_but_a_state_is() {
    let directory = with_start("saved_over");
    let image = addi(10, 0, 42).to_le_bytes();
    std::fs::write(directory.join("image"), image).unwrap();
    std::os::unix::fs::symlink("image", directory.join("link")).unwrap();
    for place in ["image", "link", "../saved_over/image"] {
        let answer = bench_in(&directory, &["run", "image", "--save", place]);
        assert_eq!((answer.status, answer.out.as_str()), (3, ""), "{place}");
        let reason = format!("bench: {place}: it is read, and not written over\n");
        assert_eq!(answer.err, reason);
    }
    assert_eq!(std::fs::read(directory.join("image")).unwrap(), image);
    assert_eq!(saved_to(&directory, "start").status, 1);
    let saved = std::fs::read_to_string(directory.join("start")).unwrap();
    assert!(saved.contains("\nmcause 00000003\n"), "{saved}");
}

#[test]
fn a_place_that_is_not_there_is_said_before_the_run() {
    let directory = with_start("saved_nowhere");
    let arguments = [
        "run",
        "--state",
        "start",
        "--trace",
        "--save",
        "nowhere/end",
    ];
    let answer = bench_in(&directory, &arguments);
    assert_eq!((answer.status, answer.out.as_str()), (3, ""));
    assert!(answer.err.starts_with("bench: nowhere/end: "));
}

/// A run whose files can have 1,024 bytes, as on a disk that is full.
#[test]
fn a_state_that_does_not_fit_leaves_the_old_one_and_the_run_is_told() {
    let directory = with_start("saved_full");
    std::fs::write(directory.join("end"), "old").unwrap();
    // Whether the signal that the system sends then is ignored or not.
    for before in ["", "trap '' XFSZ;"] {
        let line = format!("ulimit -f 1; {before} exec $BENCH run --state start --save end");
        let Answer { status, out, err } = shell_in(&directory, &line);
        assert_eq!(status, 3, "{err}");
        assert_eq!(err, "bench: end: no larger file is possible there\n");
        assert!(out.starts_with("1 step retired, 1 trapped."), "{out}");
        let kept = std::fs::read_to_string(directory.join("end")).unwrap();
        assert_eq!(kept, "old");
        assert_eq!(names_in(&directory), ["end", "start"]);
    }
}
