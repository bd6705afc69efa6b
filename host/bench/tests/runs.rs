//! Runs: the demonstration, saved states, JSON, the trace, cuts and capabilities.

mod common;

use common::state::{text, with_code, with_code_and_value, LOAD_IT, START};
use common::words::{addi, cjal, cjalr, r, store, EBREAK};
use common::{bench_in, directory, examples, golden, shell_in, SMALL};
use lent::{Capability, State, EXECUTABLE_ROOT, MEMORY_ROOT, MTCC};
use serde_json::json;

const LARGE: [&str; 5] = [
    "run",
    "--map",
    "interlock_large.map",
    "interlock_large.hex",
    "interlock_image.hex",
];

#[test]
fn the_demonstration_stops_on_the_small_board() {
    golden("demonstration_small", &bench_in(&examples(), &SMALL).text());
}

#[test]
fn the_demonstration_ends_on_the_large_board() {
    golden("demonstration_large", &bench_in(&examples(), &LARGE).text());
}

#[test]
fn the_demonstration_as_json() {
    let answer = bench_in(&examples(), &[&SMALL[..], &["--json"]].concat());
    let value = answer.json();
    assert_eq!(answer.status, 1);
    assert_eq!(
        (&value["retired"], &value["trapped"]),
        (&json!(375), &json!(1))
    );
    assert_eq!(value["end"], "trap");
    let trap = &value["trap"];
    assert_eq!(trap["cause"], "store outside the bounds of c2");
    assert_eq!(trap["at"], 0x2000_010Cu32);
    assert_eq!(trap["word"], 0xFE11_3C23u32);
    assert_eq!(trap["instruction"], "csc 2 1 -8");
    assert_eq!(trap["gone_on"], false);
    assert_eq!(trap["names"], json!([{ "name": "image", "offset": 12 }]));
    let asked = &trap["asked"];
    assert_eq!(
        (&asked["address"], &asked["size"]),
        (&json!(0x2000_0478u32), &json!(8))
    );
    assert_eq!(
        asked["names"],
        json!([{ "name": "interlock", "offset": 120 }])
    );
    let rows = ["D12:SHUTD13:SHUT", "D14:SHUTD15:SHUT", &"\0".repeat(16)];
    let memory = (0x2000_0460u32..).step_by(16).zip(rows).map(|(address, row)| {
        json!({ "address": address, "bytes": row.as_bytes(), "tags": [false, false] })
    });
    assert_eq!(asked["memory"], json!(memory.collect::<Vec<_>>()));
    let bounds = json!({ "low": 0x2000_0480u32, "high": 0x2000_0800u32 });
    assert_eq!(trap["authority"]["bounds"], bounds);
    assert_eq!(trap["authority"]["name"], "c2");
    assert_eq!(
        value["state"]["registers"].as_array().map(Vec::len),
        Some(21)
    );
    let large = bench_in(&examples(), &[&LARGE[..], &["--json"]].concat());
    assert_eq!((large.status, &large.json()["end"]), (0, &json!("still")));
    assert_eq!(large.json()["trap"], json!(null));
}

#[test]
fn a_run_in_two_parts_leaves_the_state_of_one_run() {
    let directory = directory("parts");
    let path = |name: &str| directory.join(name).display().to_string();
    let (whole, part, end) = (path("whole"), path("part"), path("end"));
    bench_in(&examples(), &[&SMALL[..], &["--save", &whole]].concat());
    for steps in ["0", "1", "100", "375"] {
        let first = [&SMALL[..], &["--steps", steps, "--save", &part]].concat();
        assert_eq!(bench_in(&examples(), &first).status, 0);
        let rest = bench_in(&examples(), &["run", "--state", &part, "--save", &end]);
        assert_eq!(rest.status, 1);
        let [one, two] = [&whole, &end].map(|path| std::fs::read(path).unwrap());
        assert_eq!(one, two, "{steps} steps first");
    }
    let none = ["run", "--state", &whole, "--steps", "0", "--save", &end];
    assert_eq!(bench_in(&directory, &none).status, 0);
    assert_eq!(std::fs::read(&whole).unwrap(), std::fs::read(&end).unwrap());
}

#[test]
fn the_test_writer_of_states_is_the_commands() {
    let directory = directory("writers");
    let text = text(&with_code(&[addi(1, 0, 1)]));
    std::fs::write(directory.join("start"), &text).unwrap();
    let same = ["run", "--state", "start", "--steps", "0", "--save", "end"];
    assert_eq!(bench_in(&directory, &same).status, 0);
    assert_eq!(
        std::fs::read_to_string(directory.join("end")).unwrap(),
        text
    );
}

#[test]
fn damaged_states_are_refused() {
    let directory = directory("damaged");
    let text = text(&with_code(&[addi(1, 0, 1)]));
    let mut said = String::new();
    for (name, damaged) in [
        ("a digit", text.replacen("5e3e0000", "5e3e0001", 1)),
        ("cut short", text[..200].into()),
        ("another version", text.replacen("state 4", "state 5", 1)),
        ("empty", String::new()),
    ] {
        std::fs::write(directory.join("start"), damaged).unwrap();
        let answer = bench_in(&directory, &["run", "--state", "start", "--save", "end"]);
        assert_eq!((answer.status, answer.out.as_str()), (3, ""), "{name}");
        assert!(!directory.join("end").exists());
        said.push_str(&format!("== {name}\n{}", answer.text()));
    }
    golden("damaged_states", &said);
}

#[test]
fn an_image_over_a_saved_state_clears_the_tags_it_covers() {
    let directory = directory("over");
    let mut state = with_code(&[]);
    state.tags = vec![0xFF; 4];
    std::fs::write(directory.join("start"), text(&state)).unwrap();
    std::fs::write(directory.join("image"), [0x13; 12]).unwrap();
    let over = [
        "run", "image", "--state", "start", "--steps", "0", "--save", "end",
    ];
    assert_eq!(bench_in(&directory, &over).status, 0);
    let saved = std::fs::read_to_string(directory.join("end")).unwrap();
    assert!(saved.contains("tags 4\n00000000 fcffffff\n"), "{saved}");
}

/// A state whose program counts, stores c3, jumps over a word and stops.
fn traced() -> State {
    let mut state = with_code(&[
        addi(10, 0, 7),
        store(3, 8),
        cjal(8),
        0,
        store(2, 12),
        EBREAK,
    ]);
    state.set(2, Capability::tagged(START + 0x40, MEMORY_ROOT));
    state.set(3, Capability::tagged(START + 0x80, MEMORY_ROOT));
    state
}

#[test]
fn the_trace_has_a_line_a_step() {
    let directory = directory("trace");
    std::fs::write(directory.join("start"), text(&traced())).unwrap();
    let answer = bench_in(&directory, &["run", "--state", "start", "--trace"]);
    golden("trace", &answer.text());
    let json = bench_in(
        &directory,
        &["run", "--state", "start", "--trace", "--json"],
    );
    assert_eq!(json.json()["retired"], 4);
    assert_eq!(json.err.lines().count(), 5);
    assert!(answer.out.starts_with(&json.err));
}

/// A program that jumps to the next word, into narrower bounds, and then fetches past them.
#[test]
fn the_trace_shows_new_bounds_of_pcc_and_no_word_that_was_not_fetched() {
    let directory = directory("trace_bounds");
    let mut state = with_code(&[cjalr(0), addi(10, 0, 7), EBREAK]);
    let narrow = EXECUTABLE_ROOT & !0x3F_FFFF | 8 << 9 | 4;
    state.set(2, Capability::tagged(START + 4, narrow));
    std::fs::write(directory.join("start"), text(&state)).unwrap();
    let answer = bench_in(&directory, &["run", "--state", "start", "--trace"]);
    let lines: Vec<&str> = answer.out.lines().take(3).collect();
    let said = [
        "       1  20000000  000100e7  cjalr 1 2 0              c1 := 20000004 [00000000, 100000000) \
         (sentry, interrupts off), PCC := 20000004 [20000004, 20000008)",
        "       2  20000004  00700513  addi 10 0 7              c10 := 00000007",
        "       3  20000008  --------                           trap: fetch outside the bounds of PCC",
    ];
    assert_eq!(lines, said);
}

/// c.li x10, 7; c.jal .+4 over c.nop; a long word between two multiples of four; c.ebreak. The start is at
/// an address that is even and no multiple of four.
#[test]
fn the_trace_shows_short_words_by_four_digits_and_their_names() {
    let directory = directory("trace_short");
    let halves = [0u16, 0x451D, 0x2011, 0x0001, 0x0513, 0x0095, 0x9002];
    let image: Vec<u8> = halves.iter().flat_map(|half| half.to_le_bytes()).collect();
    std::fs::write(directory.join("image"), image).unwrap();
    let run = ["run", "image", "--trace", "--entry", "0x20000002"];
    let answer = bench_in(&directory, &run);
    let lines: Vec<&str> = answer.out.lines().take(4).collect();
    let said = [
        "       1  20000002  451d      c.li 10 7                c10 := 00000007",
        "       2  20000004  2011      c.jal 4                  c1 := 20000006 [00000000, 100000000) \
         (sentry, interrupts off), PCC := 20000008 [00000000, 100000000)",
        "       3  20000008  00950513  addi 10 10 9             c10 := 00000010",
        "       4  2000000c  9002      c.ebreak                 trap: breakpoint (EBREAK)",
    ];
    assert_eq!(lines, said);
    let value = bench_in(&directory, &[&run[..], &["--json"]].concat()).json();
    let trap = &value["trap"];
    assert_eq!(
        (&trap["word"], &trap["length"], &trap["instruction"]),
        (&json!(0x9002), &json!(2), &json!("c.ebreak"))
    );
    let odd = bench_in(&directory, &["run", "image", "--entry", "0x20000003"]);
    assert_eq!((odd.status, odd.out.as_str()), (3, ""));
    assert!(odd.err.contains("an instruction's address is even"));
}

/// MUL, DIV by zero and REM of -7 and 3.
#[test]
fn the_trace_shows_products_and_quotients() {
    let directory = directory("trace_multiply");
    let m = |rs2, funct3, rd| r(1, rs2, 2, funct3, rd, 0x33);
    let mut state = with_code(&[m(3, 0, 10), m(0, 4, 11), m(3, 6, 12), EBREAK]);
    state.set(2, Capability::integer(0xFFFF_FFF9));
    state.set(3, Capability::integer(3));
    std::fs::write(directory.join("start"), text(&state)).unwrap();
    let answer = bench_in(&directory, &["run", "--state", "start", "--trace"]);
    let lines: Vec<&str> = answer.out.lines().take(3).collect();
    let said = [
        "       1  20000000  02310533  mul 10 2 3               c10 := ffffffeb",
        "       2  20000004  020145b3  div 11 2 0               c11 := ffffffff",
        "       3  20000008  02316633  rem 12 2 3               c12 := ffffffff",
    ];
    assert_eq!(lines, said);
}

/// A run that loads a value with low above high goes on, and its page has the lines of its trace.
#[test]
fn the_page_of_a_run_that_loads_what_no_start_may_hold() {
    let directory = directory("loads_unsound");
    let state = with_code_and_value(&[addi(10, 0, 1), LOAD_IT, addi(10, 10, 1), EBREAK]);
    std::fs::write(directory.join("start"), text(&state)).unwrap();
    let run = ["run", "--state", "start"];
    let paged = bench_in(&directory, &[&run[..], &["--report", "page"]].concat());
    assert_eq!(paged.status, 1, "{}", paged.err);
    let traced = bench_in(&directory, &[&run[..], &["--trace", "--json"]].concat());
    let lines: Vec<&str> = traced.err.lines().collect();
    assert_eq!(lines.len(), 4, "{}", traced.err);
    assert!(lines[1].contains("c2 := 05000000"), "{}", lines[1]);
    let page = std::fs::read_to_string(directory.join("page")).unwrap();
    for line in lines {
        assert!(page.contains(line), "{line}");
    }
}

/// An endless loop: whoever has read enough is not kept waiting, but a state is saved all the same.
#[test]
fn a_trace_ends_with_its_reader() {
    let directory = directory("trace_reader");
    let state = with_code(&[addi(10, 10, 1), 0xFFDF_F06F]);
    std::fs::write(directory.join("start"), text(&state)).unwrap();
    let line = "$BENCH run --state start --trace --steps 18446744073709551615 | head -n 1";
    let answer = shell_in(&directory, line);
    assert_eq!(
        (answer.status, answer.out.as_str(), answer.err.as_str()),
        (
            0,
            "       1  20000000  00150513  addi 10 10 1             c10 := 00000001\n",
            ""
        )
    );
    let line = "$BENCH run --state start --trace --steps 20000 --save end | head -n 1";
    assert_eq!(shell_in(&directory, line).status, 0);
    let saved = std::fs::read_to_string(directory.join("end")).unwrap();
    assert!(saved.contains("\nc10 00002710 "), "{saved}");
}

#[test]
fn messages_that_cannot_be_written_do_not_change_the_status() {
    let directory = directory("unwritten");
    std::fs::write(directory.join("start"), text(&traced())).unwrap();
    for (line, status) in [
        ("$BENCH run nowhere 2>/dev/full", 3),
        ("$BENCH sweep 2>/dev/full", 3),
        ("$BENCH cut 0xffffffff 2 2>/dev/full", 2),
        ("$BENCH run --state start --json --trace 2>/dev/full", 1),
        ("$BENCH run --state start >/dev/full", 3),
        ("$BENCH run --state start | true; exit ${PIPESTATUS[0]}", 1),
    ] {
        let answer = shell_in(&directory, line);
        assert_eq!(answer.status, status, "{line}: {}", answer.err);
    }
}

/// The arguments of a run from the state `start` on through its traps.
fn through_traps<'a>(steps: &'a str, more: &[&'a str]) -> Vec<&'a str> {
    let run = ["run", "--state", "start", "--through-traps", "--steps"];
    [&run[..], &[steps], more].concat()
}

#[test]
fn a_recorded_trap_says_whether_the_program_has_gone_on() {
    let directory = directory("gone_on");
    let mut state = traced();
    state.set(MTCC, Capability::tagged(START, EXECUTABLE_ROOT));
    std::fs::write(directory.join("start"), text(&state)).unwrap();
    for (steps, gone_on) in [("5", false), ("6", true)] {
        let run = bench_in(
            &directory,
            &through_traps(steps, &["--json", "--save", "end"]),
        );
        assert_eq!(run.json()["trap"]["gone_on"], gone_on);
        let explained = bench_in(&directory, &["explain", "end", "--json"]);
        assert_eq!(explained.json()["trap"], run.json()["trap"]);
        let text = bench_in(&directory, &["explain", "end"]).out;
        assert_eq!(text.starts_with("The program has gone on"), gone_on);
    }
}

#[test]
fn through_traps_goes_on_at_mtcc() {
    let directory = directory("through");
    let mut state = traced();
    state.set(MTCC, Capability::tagged(START + 8, EXECUTABLE_ROOT));
    std::fs::write(directory.join("start"), text(&state)).unwrap();
    let answer = bench_in(&directory, &through_traps("1000", &["--json"]));
    let value = answer.json();
    assert_eq!((answer.status, &value["end"]), (1, &json!("stuck")));
    assert_eq!(
        (&value["retired"], &value["trapped"]),
        (&json!(668), &json!(332))
    );
}

#[test]
fn a_long_run_is_made_in_calls() {
    let directory = directory("long");
    let back = addi(10, 10, 1);
    let jump = 0xFFDF_F06Fu32;
    let image: Vec<u8> = [back, jump]
        .iter()
        .flat_map(|word| word.to_le_bytes())
        .collect();
    std::fs::write(directory.join("image"), image).unwrap();
    let answer = bench_in(
        &directory,
        &["run", "image", "--steps", "5000001", "--json"],
    );
    let value = answer.json();
    assert_eq!((answer.status, &value["end"]), (0, &json!("steps")));
    assert_eq!(value["retired"], 5_000_001);
    assert_eq!(value["state"]["registers"][10]["address"], 2_500_001);
    assert_eq!(answer.err, "", "no bar where standard error is no terminal");
}

#[test]
fn cuts_and_capabilities_are_the_papers() {
    let directory = directory("cuts");
    let mut text = String::new();
    for arguments in [
        &["cut", "0x20000001", "511"][..],
        &["cut", "0x20000001", "512"],
        &["cut", "0x20000001", "1022"],
        &["cut", "0x20000000", "8372225"],
        &["cut", "0x20000000", "0"],
        &["cut", "0", "0xffffffff", "--json"],
        &["cap", "0", "0x7e3e0000"],
        &["cap", "0", "0x5e3e0000"],
        &["cap", "0", "0x4e3e0000"],
        &["cap", "0x20000480", "0x56840080"],
        &["cap", "0x20000480", "0x7e040040", "--json"],
        &["cap", "5", "0"],
    ] {
        let answer = bench_in(&directory, arguments);
        text.push_str(&format!("== {}\n{}", arguments.join(" "), answer.text()));
    }
    golden("cuts_and_capabilities", &text);
}
