//! SIGINT, SIGTERM and SIGHUP: a run and a shelf end with what they have, and say so; no file that was being made is left.

mod common;

use common::state::{text, with_code};
use common::words::addi;
use common::{bench_in, directory, names_in, sheet, shell_in};
use serde_json::Value;
use std::fs;
use std::io::Read;
use std::os::unix::process::ExitStatusExt;
use std::path::Path;
use std::process::{Child, Command, Stdio};
use std::time::{Duration, Instant};

const SIGHUP: i32 = 1;
const SIGINT: i32 = 2;
const SIGTERM: i32 = 15;
/// bne c10, c11, -4: the counting loop before it goes on until c10 is c11.
const AGAIN: u32 = 0xFEB5_1EE3;
const JUMP_TO_ITSELF: u32 = 0x0000_006F;
/// More steps than are ever made here.
const ENDLESS: [&str; 2] = ["--steps", "1000000000000"];
/// How soon a command that is asked to stop has ended, with some patience for a machine that others use too.
const SOON: Duration = Duration::from_secs(5);

fn counting() -> [u32; 3] {
    [addi(10, 10, 1), AGAIN, JUMP_TO_ITSELF]
}

/// The same as an image: c11 is set before the loop, so far off that the loop has no end here.
fn endless() -> Vec<u8> {
    let words = [addi(11, 0, -1)].into_iter().chain(counting());
    words.flat_map(u32::to_le_bytes).collect()
}

/// A command on its way.
struct Going(Child);

impl Going {
    fn start(folder: &Path, words: &[&str]) -> Going {
        Going::start_by(&[], folder, words)
    }

    /// The same by another command, which becomes it.
    fn start_by(other: &[&str], folder: &Path, words: &[&str]) -> Going {
        let line = [other, &[env!("CARGO_BIN_EXE_bench")], words].concat();
        let child = Command::new(line[0])
            .args(&line[1..])
            .current_dir(folder)
            .stdout(Stdio::piped())
            .stderr(Stdio::piped())
            .spawn();
        Going(child.expect("the command runs"))
    }

    fn send(&self, signal: i32) {
        let (signal, process) = (format!("-{signal}"), self.0.id().to_string());
        let sent = Command::new("kill").args([signal, process]).status();
        assert!(sent.expect("kill runs").success());
    }

    /// What it wrote, and the signal that it ended by.
    fn end(mut self) -> (Option<i32>, String, String) {
        let (mut out, mut err) = (String::new(), String::new());
        let read = self.0.stdout.take().unwrap().read_to_string(&mut out);
        read.expect("text");
        let read = self.0.stderr.take().unwrap().read_to_string(&mut err);
        read.expect("text");
        (self.0.wait().unwrap().signal(), out, err)
    }

    /// The same after a signal, which it ends by soon.
    fn stopped(self, signal: i32) -> (String, String) {
        let began = Instant::now();
        self.send(signal);
        let (by, out, err) = self.end();
        assert_eq!(by, Some(signal), "{err}");
        assert!(began.elapsed() < SOON, "{:?}", began.elapsed());
        (out, err)
    }
}

fn wait(milliseconds: u64) {
    std::thread::sleep(Duration::from_millis(milliseconds));
}

/// The steps that a message says a signal came after.
fn steps_of(err: &str) -> String {
    let rest = err.split(" came after ").nth(1);
    let steps = rest.and_then(|rest| rest.split(" step").next());
    steps.expect("a number of steps").replace(',', "")
}

/// What a run writes that is asked for all it can.
fn files(name: &str) -> [String; 3] {
    ["", ".html", ".txt"].map(|kind| format!("{name}{kind}"))
}

/// That text is in a text.
fn assert_has(text: &str, part: &str) {
    assert!(text.contains(part), "no '{part}' in: {text}");
}

#[test]
fn a_run_that_is_stopped_saves_what_the_steps_until_then_leave() {
    let folder = directory("stopped_run");
    fs::write(folder.join("image"), endless()).unwrap();
    for (signal, name) in [(SIGINT, "SIGINT"), (SIGTERM, "SIGTERM")] {
        let [state, page, memory] = files(name);
        let asked = format!("--save {state} --report {page} --signature 0x20000000 64 {memory}");
        let asked: Vec<&str> = asked.split(' ').collect();
        let going = Going::start(&folder, &[&["run", "image"], &ENDLESS[..], &asked].concat());
        wait(500);
        let (out, err) = going.stopped(signal);
        let steps = steps_of(&err);
        assert!(steps.parse::<u64>().unwrap() > 1_000, "{err}");
        assert!(
            err.starts_with(&format!("bench: {name} came after ")),
            "{err}"
        );
        let said = format!("; saved up to there: {state}, {page}, {memory}\n");
        assert!(err.ends_with(&said), "{err}");
        assert_has(
            &out,
            "0 trapped. A signal stopped the run; the next step is at 2000000",
        );
        assert_has(&out, "The run is not judged: a signal came before.\n");
        let text = fs::read_to_string(folder.join(&page)).unwrap();
        assert_has(&text, "A signal stopped it, and it is not judged.");
        // So many steps lead there, and no others.
        let exact =
            format!("run image --steps {steps} --save end --signature 0x20000000 64 end.txt");
        let exact: Vec<&str> = exact.split(' ').collect();
        assert_eq!(bench_in(&folder, &exact).status, 0);
        for (one, other) in [(&state, "end"), (&memory, "end.txt")] {
            let [one, other] = [one, other].map(|name| fs::read(folder.join(name)).unwrap());
            assert!(one == other, "{name}");
        }
    }
}

/// A board of sixty regions, with a hole after each.
fn board() -> String {
    let region = |number: u8| {
        let letters = [number / 8, number % 8].map(|letter| char::from(b'a' + letter));
        let start = 0x2000_0100 + 0x20 * u32::from(number);
        format!("r{}{} {start:08x} 00000010 rw", letters[0], letters[1])
    };
    let mut regions = vec!["code 20000000 00000100 rwx".to_string()];
    regions.extend((0..60).map(region));
    regions.push("last 20001000 00000040 rw".into());
    let regions: Vec<&str> = regions.iter().map(String::as_str).collect();
    sheet(&regions)
}

#[test]
fn a_run_of_any_kind_is_stopped_soon() {
    let folder = directory("stopped_kinds");
    fs::write(folder.join("image"), endless()).unwrap();
    fs::write(folder.join("board"), board()).unwrap();
    let kinds = [
        "--engine plain",
        "--cover",
        "--break 0x20000040",
        "--sweep 1000",
        "--console 0x20000080",
        "--last 1000",
        "--through-traps --watch 0x20000080 4",
        // What is counted afterwards would take thirty times as long as the run.
        "--map board",
    ];
    for kind in kinds {
        let words: Vec<&str> = kind.split(' ').collect();
        let run = [&["run", "image", "--json"], &ENDLESS[..], &words].concat();
        let going = Going::start(&folder, &run);
        wait(400);
        let (out, err) = going.stopped(SIGTERM);
        let value: Value = serde_json::from_str(&out).expect("JSON");
        assert_eq!(value["end"], "stopped", "{kind}");
        assert_eq!(value["verdict"], "stopped", "{kind}");
        assert_eq!(value["retired"].to_string(), steps_of(&err), "{kind}");
        assert!(err.ends_with("; nothing was to be saved\n"), "{err}");
    }
}

#[test]
fn a_run_that_has_ended_and_is_judged_for_long_is_stopped_soon() {
    let folder = directory("stopped_judging");
    fs::write(folder.join("image"), endless()).unwrap();
    fs::write(folder.join("board"), board()).unwrap();
    let run = "run image --json --map board --save end --steps 100000000";
    let going = Going::start(&folder, &run.split(' ').collect::<Vec<&str>>());
    wait(3_000);
    let (out, err) = going.stopped(SIGINT);
    let value: Value = serde_json::from_str(&out).expect("JSON");
    assert_eq!(value["verdict"], "stopped");
    assert_eq!(value["map_stores"], Value::Null);
    assert!(err.ends_with("; saved up to there: end\n"), "{err}");
    assert!(folder.join("end").is_file());
}

#[test]
fn a_trace_is_stopped_after_a_whole_line_and_a_second_signal_does_not_wait() {
    let folder = directory("stopped_trace");
    fs::write(folder.join("image"), endless()).unwrap();
    let run = [&["run", "image", "--trace"], &ENDLESS[..]].concat();
    // Nobody reads the trace yet, so that the run waits for that.
    let going = Going::start(&folder, &run);
    wait(300);
    going.send(SIGINT);
    wait(300);
    let (by, out, err) = going.end();
    assert_eq!(by, Some(SIGINT));
    let last = out
        .lines()
        .rfind(|line| line.contains("  bne ") || line.contains("addi"))
        .unwrap();
    let number: String = last
        .trim_start()
        .chars()
        .take_while(char::is_ascii_digit)
        .collect();
    assert_eq!(number, steps_of(&err));
    let mut going = Going::start(&folder, &run);
    wait(300);
    going.send(SIGINT);
    wait(300);
    assert!(going.0.try_wait().unwrap().is_none());
    going.send(SIGTERM);
    let began = Instant::now();
    assert_eq!(going.0.wait().unwrap().signal(), Some(SIGTERM));
    assert!(began.elapsed() < SOON);
}

/// A folder with a board and a shelf: `a` ends at once, `b` never.
fn with_shelf(name: &str) -> std::path::PathBuf {
    let folder = directory(name);
    fs::write(folder.join("board"), sheet(&["all 20000000 00001000 rwx"])).unwrap();
    fs::create_dir(folder.join("shelf")).unwrap();
    fs::write(folder.join("shelf/a"), JUMP_TO_ITSELF.to_le_bytes()).unwrap();
    fs::write(folder.join("shelf/b"), endless()).unwrap();
    folder
}

#[test]
fn a_shelf_that_is_stopped_ends_with_the_table_so_far() {
    let folder = with_shelf("stopped_shelf");
    fs::write(folder.join("shelf/c"), JUMP_TO_ITSELF.to_le_bytes()).unwrap();
    let words = [
        "shelf", "shelf", "--board", "board", "--jobs", "1", "--report", "pages",
    ];
    let shelf = [&words[..], &ENDLESS].concat();
    let stopped = |signal, more: &[&str]| {
        let going = Going::start(&folder, &[&shelf[..], more].concat());
        wait(600);
        going.stopped(signal)
    };
    let (out, err) = stopped(SIGINT, &[]);
    assert_eq!(
        err,
        "bench: SIGINT came after 1 of 3 images; the table has these\n"
    );
    let lines: Vec<&str> = out.lines().collect();
    assert!(lines[1].starts_with("a ") && lines[2].is_empty(), "{out}");
    let summary = "1 image: 0 fit and are good; 1 have no label to be judged by; 2 more are not judged, since a signal came.";
    assert_eq!(lines[3..], [summary]);
    let index = fs::read_to_string(folder.join("pages/index.html")).unwrap();
    assert!(
        index.contains("A signal stopped the shelf: not every image is judged."),
        "{index}"
    );
    // What was judged is at hand the next time, and nothing else is in the way.
    let (out, err) = stopped(SIGTERM, &["--json"]);
    let said = "bench: 1 of 1 results were at hand\nbench: SIGTERM came after 1 of 3 images; the table has these\n";
    assert_eq!(err, said);
    let value: Value = serde_json::from_str(&out).expect("JSON");
    assert_eq!(value["counts"]["left"], 2);
    let names = names_in(&folder.join("pages"));
    let [page, index, results] = &names[..] else {
        panic!("{names:?}")
    };
    assert!(page.starts_with("a-"), "{names:?}");
    assert_eq!([index.as_str(), results], ["index.html", "results.txt"]);
}

#[test]
fn a_kept_result_of_an_image_that_was_not_come_to_is_not_in_the_table() {
    let folder = with_shelf("stopped_stale");
    let words = [
        "shelf",
        "shelf",
        "--board",
        "board",
        "--jobs",
        "1",
        "--results",
        "results",
    ];
    let shelf = [&words[..], &ENDLESS].concat();
    let keep = |name: &str| fs::rename(folder.join("shelf/b"), folder.join(name)).unwrap();
    // With `b` last, `a` and `z` are judged and kept; then `z` changes, and `b` stands before it.
    keep("b");
    fs::copy(folder.join("shelf/a"), folder.join("shelf/z")).unwrap();
    assert_eq!(bench_in(&folder, &shelf).status, 1);
    fs::rename(folder.join("b"), folder.join("shelf/b")).unwrap();
    fs::write(folder.join("shelf/z"), [0; 4]).unwrap();
    let going = Going::start(&folder, &shelf);
    wait(600);
    let (out, err) = going.stopped(SIGINT);
    assert!(
        err.ends_with("SIGINT came after 1 of 3 images; the table has these\n"),
        "{err}"
    );
    assert!(!out.contains("\nz "), "{out}");
}

/// By SIGTERM: a shell has what it starts in the background ignore SIGINT, and a command that makes no file yet leaves that so.
#[test]
fn a_command_that_waits_for_its_input_ends_at_once() {
    let folder = directory("stopped_input");
    let made = Command::new("mkfifo").arg(folder.join("pipe")).status();
    assert!(made.expect("mkfifo runs").success());
    for words in [
        &["run", "pipe", "--save", "end"][..],
        &["assemble", "pipe", "-o", "end"],
    ] {
        let going = Going::start(&folder, words);
        wait(300);
        assert_eq!(going.stopped(SIGTERM), (String::new(), String::new()));
    }
    assert_eq!(names_in(&folder), ["pipe"]);
}

/// Sweeps again and again to a file that is there already, and ends the command as soon as the new one is seen beside it:
/// how often that came in time. What is left must be the old file or the whole new one, and nothing beside it.
const MAKING: &str = r#"
  shopt -s nullglob; caught=0
  for round in {1..400}; do
    printf old >end
    $BENCH sweep state --save end >/dev/null & process=$!
    made=()
    until [ -s "${made[0]}" ] || ! kill -0 $process; do made=(.bench-*); done 2>/dev/null
    kill -TERM $process 2>/dev/null
    wait $process; status=$?
    left=(.bench-*)
    [ ${#left[@]} -eq 0 ] || { echo "left: ${left[*]}"; exit 1; }
    [ "$(<end)" = old ] || cmp end state || exit 1
    [ $status -eq 143 ] && [ "$(<end)" = old ] && [ ${#made[@]} -gt 0 ] && caught=$((caught + 1))
    [ $caught -lt 3 ] || exit 0
  done
  echo "caught $caught times"; exit 1"#;

#[test]
fn a_file_that_is_being_made_is_gone_with_the_command() {
    let folder = directory("stopped_making");
    let mut state = with_code(&counting());
    state.mem.resize(1 << 20, 7);
    let state = text(&lent::State::new(state.start, state.mem));
    fs::write(folder.join("state"), &state).unwrap();
    let answer = shell_in(&folder, MAKING);
    assert_eq!(answer.status, 0, "{}{}", answer.out, answer.err);
    assert_eq!(names_in(&folder), ["end", "state"]);
}

#[test]
fn a_run_whose_terminal_goes_saves_what_it_has() {
    let folder = directory("stopped_hangup");
    fs::write(folder.join("image"), endless()).unwrap();
    let words = [&["run", "image", "--save", "end\nof it"], &ENDLESS[..]].concat();
    // Also where the tests themselves are run by nohup.
    let going = Going::start_by(&["env", "--default-signal=HUP"], &folder, &words);
    wait(600);
    let (_, err) = going.stopped(SIGHUP);
    assert_has(&err, "SIGHUP came after ");
    assert_has(&err, "; saved up to there: end\\nof it\n");
    assert_eq!(names_in(&folder), ["end\nof it", "image"]);
    // By nohup it goes on without one.
    let going = Going::start_by(&["nohup"], &folder, &words);
    wait(600);
    going.send(SIGHUP);
    wait(300);
    let (_, err) = going.stopped(SIGTERM);
    assert_has(&err, "SIGTERM came after ");
}
