//! Nothing of the user's is lost: whatever lies beside a place that is written stays, and what cannot be written leaves what
//! was there. Each check is made for every kind of output.

mod common;

use common::state::{text, with_code};
use common::words::{addi, EBREAK};
use common::{bench_in, directory, names_in, sheet, shell_in, Answer};
use std::fs;
use std::os::unix::fs::{symlink, MetadataExt, PermissionsExt};
use std::path::{Path, PathBuf};
use std::process::{Child, Command, Stdio};

/// The words of an image; a file of them, of their listing or of their signature has more than 1,024 bytes.
const WORDS: usize = 300;

fn code() -> Vec<u8> {
    let words = [addi(10, 0, 42); WORDS - 1].into_iter().chain([EBREAK]);
    words.flat_map(u32::to_le_bytes).collect()
}

/// A folder with what the commands below read: an image, a state, a listing, a board, and a shelf of one image.
fn with_inputs(name: &str) -> PathBuf {
    let folder = directory(name);
    let state = text(&with_code(&[addi(10, 0, 42), EBREAK]));
    fs::write(folder.join("image"), code()).unwrap();
    fs::write(folder.join("state"), state).unwrap();
    fs::write(folder.join("text"), "addi\t10\t0\t42\n".repeat(WORDS)).unwrap();
    fs::write(folder.join("board"), sheet(&["all 20000000 00001000 rwx"])).unwrap();
    fs::create_dir(folder.join("shelf")).unwrap();
    fs::write(folder.join("shelf/one"), code()).unwrap();
    folder
}

const INPUTS: [&str; 5] = ["board", "image", "shelf", "state", "text"];

/// A command for each kind of file that is written, to a place.
fn outputs(place: &str) -> [Vec<&str>; 6] {
    [
        vec!["run", "image", "--save", place],
        vec!["run", "image", "--report", place],
        vec!["run", "image", "--signature", "0x20000000", "0x4b0", place],
        vec!["sweep", "state", "--save", place],
        vec!["assemble", "text", "-o", place],
        vec!["shelf", "shelf", "--board", "board", "--results", place],
    ]
}

/// What came of a command that writes a file: it ended, whatever it found, and said nothing on standard error.
fn written(folder: &Path, words: &[&str]) {
    let answer = bench_in(folder, words);
    assert!(answer.status < 2, "{words:?}: {}", answer.err);
    assert_eq!(answer.err, "", "{words:?}");
}

/// A folder's names are the inputs and these.
fn holds(folder: &Path, more: &[&str]) {
    let mut names: Vec<&str> = INPUTS.iter().chain(more).copied().collect();
    names.sort();
    assert_eq!(names_in(folder), names);
}

#[test]
fn what_lies_beside_a_place_stays() {
    let folder = with_inputs("keep_beside");
    fs::write(folder.join("end.part"), "mine").unwrap();
    for words in outputs("end") {
        let _ = fs::remove_file(folder.join("end"));
        written(&folder, &words);
        holds(&folder, &["end", "end.part"]);
        assert_eq!(fs::read(folder.join("end.part")).unwrap(), b"mine");
    }
    // A link beside it, and the file that it leads to.
    fs::rename(folder.join("end.part"), folder.join("other")).unwrap();
    symlink("other", folder.join("end.part")).unwrap();
    for words in outputs("end") {
        let _ = fs::remove_file(folder.join("end"));
        written(&folder, &words);
        holds(&folder, &["end", "end.part", "other"]);
        assert_eq!(fs::read(folder.join("other")).unwrap(), b"mine");
    }
}

#[test]
fn an_input_beside_the_place_stays() {
    let folder = with_inputs("keep_input");
    for (from, to) in [
        ("image", "a.part"),
        ("text", "c.part"),
        ("board", "d.part"),
        ("state", "e.part"),
    ] {
        fs::copy(folder.join(from), folder.join(to)).unwrap();
    }
    let commands: [&[&str]; 6] = [
        &["run", "--save", "a", "a.part"],
        &["run", "--report", "a", "a.part"],
        &["run", "--signature", "0x20000000", "8", "a", "a.part"],
        &["assemble", "c.part", "-o", "c"],
        &["run", "image", "--map", "d.part", "--save", "d"],
        &["sweep", "e.part", "--save", "e"],
    ];
    for words in commands {
        written(&folder, words);
    }
    written(
        &folder,
        &["sweep", "state", "--map", "d.part", "--save", "d"],
    );
    holds(
        &folder,
        &["a", "a.part", "c", "c.part", "d", "d.part", "e", "e.part"],
    );
    for (from, to) in [
        ("image", "a.part"),
        ("text", "c.part"),
        ("board", "d.part"),
        ("state", "e.part"),
    ] {
        let [from, to] = [from, to].map(|name| fs::read(folder.join(name)).unwrap());
        assert_eq!(from, to);
    }
}

/// Starts a run from a state file, saved to `end`.
fn saves(folder: &Path, state: &str) -> Child {
    Command::new(env!("CARGO_BIN_EXE_bench"))
        .args(["run", "--state", state, "--save", "end"])
        .current_dir(folder)
        .stdout(Stdio::null())
        .spawn()
        .expect("the command runs")
}

#[test]
fn commands_that_save_to_one_place_at_once_leave_it_whole_at_every_time() {
    let folder = directory("keep_at_once");
    let states = [1, 2, 3].map(|number| {
        let mut state = with_code(&[addi(10, 0, number), EBREAK]);
        state.mem.resize(1 << 16, number as u8);
        let state = lent::State::new(state.start, state.mem);
        text(&state)
    });
    let names = ["one", "two", "three"];
    let ends = names.iter().zip(&states).map(|(name, state)| {
        fs::write(folder.join(name), state).unwrap();
        assert!(saves(&folder, name).wait().unwrap().code() < Some(2));
        fs::read(folder.join("end")).unwrap()
    });
    let ends: Vec<Vec<u8>> = ends.collect();
    assert!(ends[0] != ends[1] && ends[1] != ends[2]);
    let mut reads = 0;
    for _ in 0..100 {
        let mut runs: Vec<Child> = names.iter().map(|name| saves(&folder, name)).collect();
        while runs.iter_mut().any(|run| run.try_wait().unwrap().is_none()) {
            let read = fs::read(folder.join("end")).unwrap();
            assert!(ends.contains(&read), "{} bytes", read.len());
            reads += 1;
        }
        assert!(runs
            .iter_mut()
            .all(|run| run.wait().unwrap().code() < Some(2)));
    }
    assert!(reads >= 100, "{reads} reads");
    assert_eq!(names_in(&folder), ["end", "one", "three", "two"]);
}

#[test]
fn two_outputs_are_one_file_whatever_their_names() {
    let folder = with_inputs("keep_outputs");
    symlink("end", folder.join("link")).unwrap();
    fs::create_dir(folder.join("folder")).unwrap();
    let names = ["end", "./end", "folder/../end", "link"];
    let refused = |words: &[&str]| {
        let answer = bench_in(&folder, words);
        assert_eq!((answer.status, answer.out.as_str()), (3, ""), "{words:?}");
        assert!(answer.err.ends_with("saved there\n"), "{}", answer.err);
    };
    for is_there in [false, true] {
        for name in names {
            refused(&["run", "image", "--save", "end", "--report", name]);
            let signature = ["--signature", "0x20000000", "8", name];
            for other in ["--save", "--report"] {
                refused(&[&["run", "image", other, "end"], &signature[..]].concat());
            }
        }
        if !is_there {
            assert!(!folder.join("end").exists());
            fs::write(folder.join("end"), "old").unwrap();
            fs::hard_link(folder.join("end"), folder.join("twin")).unwrap();
        }
    }
    refused(&["run", "image", "--save", "end", "--report", "twin"]);
    assert_eq!(fs::read(folder.join("end")).unwrap(), b"old");
    let pages = ["shelf", "shelf", "--board", "board", "--report", "pages"];
    refused(&[&pages[..], &["--results", "./pages/index.html"]].concat());
    // Two files are two.
    written(
        &folder,
        &["run", "image", "--save", "end", "--report", "folder/end"],
    );
}

#[test]
fn what_the_command_says_is_an_output_too() {
    let folder = with_inputs("keep_said");
    // A file of results is never empty, which is said first.
    for words in &outputs("end")[..5] {
        for stream in ["2>/dev/null >", ">/dev/null 2>"] {
            let line = format!("$BENCH {} {stream} end; echo $?", words.join(" "));
            assert_eq!(shell_in(&folder, &line).out, "3\n", "{line}");
            let said = fs::read_to_string(folder.join("end")).unwrap();
            let reason = "bench: end: what the command says goes there\n";
            assert!(["", reason].contains(&said.as_str()), "{said}");
        }
    }
    let piped = shell_in(&folder, "$BENCH run image --save /dev/stdout | cat");
    assert_eq!(
        piped.err,
        "bench: /dev/stdout: what is there is no regular file\n"
    );
    holds(&folder, &["end"]);
}

#[test]
fn a_shelf_writes_over_no_page_but_its_own() {
    let folder = with_inputs("keep_pages");
    let shelf = ["shelf", "shelf", "--board", "board", "--report", "pages"];
    let index = folder.join("pages/index.html");
    fs::create_dir(folder.join("pages")).unwrap();
    let refused = |what: &str| {
        let before = fs::read(folder.join(what)).unwrap();
        let answer = bench_in(&folder, &shelf);
        let reason = format!("bench: {what}: it is no page of a shelf, and is not written over\n");
        assert_eq!(
            (answer.status, answer.out, answer.err),
            (3, String::new(), reason)
        );
        assert_eq!(fs::read(folder.join(what)).unwrap(), before);
    };
    for mine in ["", "<!DOCTYPE html>\n<title>My own</title>\n"] {
        fs::write(&index, mine).unwrap();
        refused("pages/index.html");
    }
    // The page of a run is not the shelf's either.
    fs::remove_file(&index).unwrap();
    written(&folder, &["run", "image", "--report", "pages/index.html"]);
    refused("pages/index.html");
    fs::remove_file(&index).unwrap();
    written(&folder, &shelf);
    fs::write(folder.join("shelf/two"), code()).unwrap();
    let again = bench_in(&folder, &shelf);
    assert_eq!(again.status, 1, "{}", again.err);
    let text = fs::read_to_string(&index).unwrap();
    assert!(text.contains("2 images"), "{text}");
    // What stands in the place of an image's page.
    let pages = names_in(&folder.join("pages"));
    let page = pages.iter().find(|name| name.starts_with("two-")).unwrap();
    let page = format!("pages/{page}");
    fs::write(folder.join(&page), "mine").unwrap();
    refused(&page);
}

/// A line of bash without the privilege to write what is only for reading, which root has.
fn unprivileged(folder: &Path, line: &str) -> Answer {
    let drop = "setpriv --bounding-set=-dac_override,-dac_read_search --inh-caps=-dac_override,-dac_read_search";
    let own = fs::metadata("/proc/self").unwrap().uid();
    let drop = if own == 0 { drop } else { "" };
    shell_in(folder, &format!("exec {drop} {line}"))
}

#[test]
fn what_the_system_does_not_permit_is_said_and_left() {
    let folder = with_inputs("keep_denied");
    let mode = |name: &str, mode| {
        fs::set_permissions(folder.join(name), fs::Permissions::from_mode(mode)).unwrap()
    };
    fs::create_dir(folder.join("locked")).unwrap();
    fs::write(folder.join("locked/old"), "old").unwrap();
    fs::write(folder.join("kept"), "old").unwrap();
    mode("kept", 0o444);
    mode("locked", 0o555);
    for place in ["kept", "locked/old", "locked/new"] {
        for words in outputs(place) {
            let answer = unprivileged(&folder, &format!("$BENCH {}", words.join(" ")));
            // A file that holds no results is told from others before.
            let is_old = words[0] == "shelf" && place != "locked/new";
            let why = match is_old {
                true => "it holds no results of a shelf, and is not written over",
                false => "the system does not permit it",
            };
            assert_eq!((answer.status, answer.out.as_str()), (3, ""), "{words:?}");
            assert_eq!(answer.err, format!("bench: {place}: {why}\n"));
        }
    }
    let pages = "$BENCH shelf shelf --board board --report locked";
    let answer = unprivileged(&folder, pages);
    assert_eq!(
        answer.err,
        "bench: locked/index.html: the system does not permit it\n"
    );
    holds(&folder, &["kept", "locked"]);
    assert_eq!(names_in(&folder.join("locked")), ["old"]);
    for name in ["kept", "locked/old"] {
        assert_eq!(fs::read(folder.join(name)).unwrap(), b"old");
    }
    mode("locked", 0o755);
}

/// Files can have 1,024 bytes here, as on a disk that is full.
const FULL: &str = "ulimit -f 1; exec $BENCH";

#[test]
fn a_full_disk_leaves_what_was_there() {
    let folder = with_inputs("keep_full");
    let mut state = with_code(&[addi(10, 0, 42), EBREAK]);
    state.mem.fill(7);
    fs::write(folder.join("state"), text(&state)).unwrap();
    // Enough images that their results do not fit.
    for number in 0..9 {
        fs::write(folder.join(format!("shelf/{number}")), code()).unwrap();
    }
    for words in outputs("end") {
        let old = match words[0] {
            "shelf" => "oddersnow shelf 1\n",
            _ => "old",
        };
        fs::write(folder.join("end"), old).unwrap();
        let Answer { status, err, .. } = shell_in(&folder, &format!("{FULL} {}", words.join(" ")));
        assert_eq!(status, 3, "{words:?}: {err}");
        assert_eq!(err, "bench: end: no larger file is possible there\n");
        assert_eq!(fs::read_to_string(folder.join("end")).unwrap(), old);
        holds(&folder, &["end"]);
    }
    let pages = format!("{FULL} shelf shelf --board board --report pages");
    let answer = shell_in(&folder, &pages);
    assert_eq!(answer.status, 3);
    assert!(answer.err.starts_with("bench: pages/"), "{}", answer.err);
    let left = names_in(&folder.join("pages"));
    assert!(left.iter().all(|name| !name.ends_with(".html")), "{left:?}");
    assert!(left.iter().all(|name| !name.starts_with('.')), "{left:?}");
}

/// That no output can go to a place, for which reason.
fn all_refused(folder: &Path, place: &str, why: &str) {
    for words in outputs(place) {
        let answer = bench_in(folder, &words);
        assert_eq!((answer.status, answer.out.as_str()), (3, ""), "{words:?}");
        assert_eq!(answer.err, format!("bench: {place}: {why}\n"));
    }
}

#[test]
fn links_stay_wherever_they_lead() {
    let folder = with_inputs("keep_links");
    let links = ["ahead", "circle", "lost", "round", "self"];
    let targets = ["new", "round", "nowhere/file", "circle", "self"];
    for (name, target) in links.iter().zip(targets) {
        symlink(target, folder.join(name)).unwrap();
    }
    all_refused(&folder, "circle", "its links lead in a circle");
    all_refused(&folder, "self", "its links lead in a circle");
    all_refused(
        &folder,
        "lost",
        "the folder that it is to be in is not there",
    );
    holds(&folder, &links);
    // One that leads to a file that is not there yet: it is made there.
    for words in outputs("ahead") {
        let _ = fs::remove_file(folder.join("new"));
        written(&folder, &words);
        assert!(!fs::read(folder.join("new")).unwrap().is_empty());
    }
    holds(&folder, &[&links[..], &["new"]].concat());
    for name in links {
        let there = fs::symlink_metadata(folder.join(name)).unwrap();
        assert!(there.is_symlink(), "{name}");
    }
}

#[test]
fn a_file_permits_what_the_one_before_it_did_and_a_new_one_what_any_does() {
    let folder = with_inputs("keep_modes");
    let mode = || fs::metadata(folder.join("end")).unwrap().mode() & 0o7777;
    for words in outputs("end") {
        let _ = fs::remove_file(folder.join("end"));
        let line = format!("umask 027; exec $BENCH {}", words.join(" "));
        assert!(shell_in(&folder, &line).status < 2, "{words:?}");
        assert_eq!(mode(), 0o640, "{words:?}");
        fs::set_permissions(folder.join("end"), fs::Permissions::from_mode(0o604)).unwrap();
        assert!(shell_in(&folder, &line).status < 2, "{words:?}");
        assert_eq!(mode(), 0o604, "{words:?}");
    }
}

#[test]
fn a_name_may_be_as_long_as_the_system_lets_it_be() {
    let folder = with_inputs("keep_long");
    let name = "n".repeat(255);
    for words in outputs(&name) {
        let _ = fs::remove_file(folder.join(&name));
        written(&folder, &words);
        holds(&folder, &[&name]);
    }
    all_refused(&folder, "new/", "it is a folder, and a file is asked for");
    // One letter more is told before anything is run.
    for words in outputs(&"n".repeat(256)) {
        let answer = bench_in(&folder, &words);
        assert_eq!((answer.status, answer.out.as_str()), (3, ""), "{words:?}");
        assert!(
            answer.err.ends_with(": the name is too long\n"),
            "{}",
            answer.err
        );
    }
}

#[test]
fn what_is_read_from_standard_input_is_not_written_over() {
    let folder = with_inputs("keep_input");
    fs::hard_link(folder.join("image"), folder.join("other")).unwrap();
    for (line, place) in [
        ("run - --save image <image", "image"),
        ("run - --save other <image", "other"),
        ("run - --report image <image", "image"),
        ("run image --map - --report board <board", "board"),
        ("run --state - --report state <state", "state"),
        ("assemble - -o text <text", "text"),
    ] {
        let input = fs::read(folder.join(place)).unwrap();
        let answer = shell_in(&folder, &format!("exec $BENCH {line}"));
        assert_eq!((answer.status, answer.out.as_str()), (3, ""), "{line}");
        let reason = format!("bench: {place}: it is read, and not written over\n");
        assert_eq!(answer.err, reason);
        assert_eq!(fs::read(folder.join(place)).unwrap(), input, "{line}");
    }
    holds(&folder, &["other"]);
    // A file of that name is not what the name stands for.
    for round in ["new", "old"] {
        let answer = shell_in(&folder, "exec $BENCH run - --save ./- <image");
        assert_eq!((answer.status, answer.err.as_str()), (1, ""), "{round}");
    }
    holds(&folder, &["-", "other"]);
}
