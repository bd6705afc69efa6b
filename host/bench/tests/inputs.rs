//! What is read otherwise than from a named file: standard input, numbers as they are printed; and help that cannot be written.

mod common;

use common::state::{text, with_code};
use common::words::EBREAK;
use common::{bench_in, directory, examples, shell_in, SMALL};

#[test]
fn standard_input_stands_for_any_file() {
    let directory = directory("input");
    std::fs::write(directory.join("state"), text(&with_code(&[EBREAK]))).unwrap();
    let examples = examples();
    let there = examples.display();
    for (file, command, said) in [
        ("interlock_image.hex", "list -", "standard input: the data from line "),
        ("interlock_small.map", "sheet check -", "standard input: a good sheet, "),
        ("interlock_image.img", "fit EXAMPLES/interlock_large.map -", "standard input fits "),
        (
            "interlock_image.hex",
            "run --map EXAMPLES/interlock_large.map EXAMPLES/interlock_large.hex -",
            "687 steps retired, 0 trapped.",
        ),
        (
            "interlock_large.map",
            "run --map - EXAMPLES/interlock_large.hex EXAMPLES/interlock_image.hex --report page.html",
            "687 steps retired, 0 trapped.",
        ),
    ] {
        let command = command.replace("EXAMPLES", &there.to_string());
        let line = format!("$BENCH {command} <{there}/{file}");
        let answer = shell_in(&directory, &line);
        assert!(answer.status == 0 && answer.out.contains(said), "{line}: {}{}", answer.out, answer.err);
        let piped = shell_in(&directory, &format!("cat {there}/{file} | $BENCH {command}"));
        assert_eq!((piped.status, piped.out), (0, answer.out), "{line}");
    }
    let page = std::fs::read_to_string(directory.join("page.html")).unwrap();
    assert!(page.contains("standard input"), "{page}");
    for command in ["explain -", "sweep -", "run --state - --report other.html"] {
        let line = format!("cat state | $BENCH {command}");
        let answer = shell_in(&directory, &line);
        let status = i32::from(command.starts_with("run"));
        assert_eq!(answer.status, status, "{line}: {}", answer.err);
    }
    let line =
        "printf 'wfi\\n' | $BENCH assemble - | $BENCH list --plain -; $BENCH run - </dev/null";
    let answer = shell_in(&directory, line);
    let empty = "bench: standard input: the file is empty\n";
    assert_eq!((answer.out.as_str(), answer.err.as_str()), ("wfi\n", empty));
}

// A report says 1,000, and whoever takes it from there is understood.
#[test]
fn numbers_are_read_as_they_are_printed() {
    let run = |steps| bench_in(&examples(), &[&SMALL[..], &["--steps", steps]].concat());
    assert_eq!(run("0,300").status, 3);
    assert_eq!(run("300").text(), run("0x12c").text());
    let more = bench_in(&examples(), &["cut", "0x20000000", "1,048,576"]);
    assert!(more.out.contains("1,048,576 bytes, exact"), "{}", more.out);
    for bad in ["1,04,576", "1,048,57", ",048"] {
        let answer = bench_in(&examples(), &["cut", "0x20000000", bad]);
        assert!(
            answer.status == 3 && answer.err.contains("not a decimal number"),
            "{}",
            answer.err
        );
    }
}

#[test]
fn help_that_cannot_be_written_is_an_error() {
    let directory = directory("input_full");
    for words in [
        "--help",
        "run --help",
        "--version",
        "manual",
        "completions bash",
    ] {
        let answer = shell_in(&directory, &format!("$BENCH {words} >/dev/full"));
        let said = "bench: standard output: no room is left there\n";
        assert_eq!((answer.status, answer.err.as_str()), (3, said), "{words}");
        assert_eq!(
            shell_in(&directory, &format!("$BENCH {words} >/dev/null")).status,
            0
        );
    }
    // A usage goes to standard error, and where that is full too the status says it.
    assert_eq!(shell_in(&directory, "$BENCH nothing 2>/dev/full").status, 3);
}
