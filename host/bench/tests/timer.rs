//! The timer and the stack mark: options, what a run says of them, and state files with and without them.

mod common;

use common::state::{text, text_of_version_2, with_code, START};
use common::words::{addi, cjal, store, EBREAK, MRET};
use common::{bench_in, directory, golden};
use lent::{Capability, State, COMPARE, EXECUTABLE_ROOT, MCAUSE, MEMORY_ROOT, MIE};
use lent::{MSHWM, MSHWMB, MSTATUS, MTCC, TIME};
use serde_json::{json, Value};
use std::path::Path;

/// CJAL c0 to itself.
const JUMP_TO_ITSELF: u32 = 0x0000_006F;
/// Where the handler is.
const HANDLER: u32 = START + 0x80;

/// A state that counts in c10 and then jumps to itself, with interrupts on, and a handler of two words.
fn waiting(time: u64, compare: u64) -> State {
    let mut state = with_code(&[addi(10, 10, 1), addi(10, 10, 1), JUMP_TO_ITSELF]);
    for (place, word) in [(HANDLER, addi(11, 11, 1)), (HANDLER + 4, MRET)] {
        state.write(place, &word.to_le_bytes());
    }
    state.set(MTCC, Capability::tagged(HANDLER, EXECUTABLE_ROOT));
    state.regs[MSTATUS] = MIE;
    state.set_long(TIME, time);
    state.set_long(COMPARE, compare);
    state
}

fn write(directory: &Path, state: &State) {
    std::fs::write(directory.join("start"), text(state)).unwrap();
}

#[test]
fn an_interrupt_is_told_in_words() {
    let directory = directory("timer_told");
    write(&directory, &waiting(7, 12));
    let answer = bench_in(&directory, &["run", "--state", "start", "--trace"]);
    golden("timer_interrupt", &answer.text());
    assert_eq!(answer.status, 1);
    let saved = ["run", "--state", "start", "--save", "end", "--json"];
    let value = bench_in(&directory, &saved).json();
    assert_eq!(
        [&value["retired"], &value["trapped"]],
        [&json!(5), &json!(1)]
    );
    let trap = &value["trap"];
    assert_eq!(trap["cause"], "timer interrupt");
    assert_eq!(
        [&trap["mcause"], &trap["mtval"]],
        [&json!(0x8000_0007u32), &json!(0)]
    );
    assert_eq!(
        [&trap["word"], &trap["action"], &trap["asked"]],
        [&Value::Null; 3]
    );
    assert_eq!(trap["at"], START + 8);
    assert_eq!(
        [&value["state"]["time"], &value["state"]["compare"]],
        [&json!(13), &json!(12)]
    );
    let explained = bench_in(&directory, &["explain", "end"]);
    assert!(
        explained.out.starts_with("Trap: timer interrupt.\n"),
        "{}",
        explained.out
    );
}

#[test]
fn a_run_goes_on_through_interrupts() {
    let directory = directory("timer_through");
    write(&directory, &waiting(0, 5));
    let through = [
        "run",
        "--state",
        "start",
        "--through-traps",
        "--steps",
        "11",
        "--json",
    ];
    let value = bench_in(&directory, &through).json();
    // Five steps, then twice the interrupt and the handler's two words.
    assert_eq!(
        [&value["retired"], &value["trapped"]],
        [&json!(9), &json!(2)]
    );
    assert_eq!(value["state"]["registers"][11]["address"], 2);
    assert_eq!(value["state"]["time"], 11);
    assert_eq!(value["trap"]["cause"], "timer interrupt");
}

#[test]
fn time_and_compare_are_options_of_an_image_and_of_a_saved_state() {
    let directory = directory("timer_options");
    let code = [addi(10, 10, 1), addi(10, 10, 1), JUMP_TO_ITSELF];
    let bytes: Vec<u8> = code.iter().flat_map(|word| word.to_le_bytes()).collect();
    std::fs::write(directory.join("image"), bytes).unwrap();
    let state = |arguments: &[&str]| {
        let run = ["run", "--steps", "2", "--json"];
        let value = bench_in(&directory, &[&run[..], arguments].concat()).json();
        [
            value["state"]["time"].clone(),
            value["state"]["compare"].clone(),
        ]
    };
    assert_eq!(state(&["image"]), [json!(2), json!(u64::MAX)]);
    let both = [
        "image",
        "--time",
        "0xfffffffffffffffe",
        "--compare",
        "1234567890123",
    ];
    assert_eq!(state(&both), [json!(0), json!(1_234_567_890_123u64)]);
    write(&directory, &waiting(100, 200));
    assert_eq!(state(&["--state", "start"]), [json!(102), json!(200)]);
    let later = ["--state", "start", "--compare", "300"];
    assert_eq!(state(&later), [json!(102), json!(300)]);
    let reached = ["--state", "start", "--time", "199"];
    assert_eq!(state(&reached), [json!(201), json!(200)]);
    let none = bench_in(
        &directory,
        &["run", "image", "--time", "0x10000000000000000"],
    );
    assert_eq!(none.status, 3);
    assert!(none.err.contains("not below 2^64"), "{}", none.err);
}

#[test]
fn a_program_that_waits_is_told_from_one_that_has_ended() {
    let directory = directory("timer_waits");
    write(&directory, &waiting(0, 5_000));
    let first_line = |arguments: &[&str]| {
        let run = [&["run", "--state", "start"], arguments].concat();
        let answer = bench_in(&directory, &run);
        (
            answer.status,
            answer.out.lines().next().unwrap_or("").to_string(),
        )
    };
    let (status, line) = first_line(&["--steps", "6000"]);
    assert_eq!(
        (status, line.as_str()),
        (1, "5,000 steps retired, 1 trapped. Stopped at the trap.")
    );
    let (status, line) = first_line(&["--steps", "5000"]);
    let waits = "2 steps retired, 0 trapped. The program waits: it jumps to itself at 20000008, and the timer would \
                 interrupt it in 4,998 steps, which is more than were left.";
    assert_eq!((status, line.as_str()), (0, waits));
    let (status, line) = first_line(&["--compare", "0xffffffffffffffff"]);
    let ended = "2 steps retired, 0 trapped. The program ended: it jumps to itself at 20000008.";
    assert_eq!((status, line.as_str()), (0, ended));
}

#[test]
fn a_state_file_of_version_2_has_compare_0() {
    let directory = directory("timer_old");
    let state = waiting(0, 0);
    std::fs::write(directory.join("start"), text_of_version_2(&state)).unwrap();
    let same = ["run", "--state", "start", "--steps", "0", "--save", "end"];
    assert_eq!(bench_in(&directory, &same).status, 0);
    let saved = std::fs::read_to_string(directory.join("end")).unwrap();
    assert_eq!(saved, text(&state));
    // With MIE set its first step is the interrupt, unless a compare is given.
    let run = ["run", "--state", "start", "--steps", "3", "--json"];
    let value = bench_in(&directory, &run).json();
    assert_eq!(
        [&value["retired"], &value["trapped"]],
        [&json!(0), &json!(1)]
    );
    let later = [&run[..], &["--compare", "1000000"]].concat();
    let value = bench_in(&directory, &later).json();
    assert_eq!(
        [&value["retired"], &value["end"]],
        [&json!(2), &json!("waits")]
    );
}

/// A map of a board with a stack.
const SHEET: &str = "region\tcode\t20000000\t00000400\trx\nregion\tstack\t20000400\t00000400\trw\n";

/// A run of an image that stores c3 at c2, which its first words make 0x20000400 + `offset` from MTDC.
fn stack_line(directory: &Path, offset: i32, arguments: &[&str]) -> (String, Value) {
    // CSpecialRW c2, MTDC, c0; lui x4, 0x20000; addi x4, x4, 1024; CSetAddr c2, c2, x4; csc 0(c2).
    let base = [
        0x03D0_015B,
        0x2000_0237,
        addi(4, 4, 1024),
        addi(4, 4, offset),
        0x2041_015B,
    ];
    let words: Vec<u32> = base.into_iter().chain([store(3, 0), EBREAK]).collect();
    let bytes: Vec<u8> = words.iter().flat_map(|word| word.to_le_bytes()).collect();
    std::fs::write(directory.join("image"), bytes).unwrap();
    let run = [&["run", "image"], arguments].concat();
    let said = bench_in(directory, &run).out;
    let line = said.lines().nth(1).unwrap_or("").to_string();
    let value = bench_in(directory, &[&run[..], &["--json"]].concat()).json();
    (line, value["stack"].clone())
}

#[test]
fn the_report_says_how_deep_the_stack_went() {
    let directory = directory("timer_stack");
    std::fs::write(directory.join("map"), SHEET).unwrap();
    let map = ["--map", "map"];
    let (line, value) = stack_line(&directory, 904, &map);
    assert_eq!(line, "Stack: 128 of 1,024 bytes used, down to 20000780.");
    let wanted =
        json!({ "mark": 0x2000_0780, "base": 0x2000_0400, "left": 896, "used": 128, "size": 1024 });
    assert_eq!(value, wanted);
    let (line, _) = stack_line(&directory, 0, &map);
    assert_eq!(line, "Stack: 1,024 of 1,024 bytes used, down to 20000400.");
    let (line, value) = stack_line(&directory, -8, &map);
    assert_eq!(line, "Stack: none of 1,024 bytes used.");
    assert_eq!(value["used"], 0);
    let (line, value) = stack_line(&directory, 904, &[]);
    assert_eq!((line.as_str(), value), ("", Value::Null));
    let asked = ["--stack", "0x20000480", "0x380"];
    let (line, _) = stack_line(&directory, 904, &asked);
    assert_eq!(line, "Stack: 128 of 896 bytes used, down to 20000780.");
    let far = bench_in(
        &directory,
        &["run", "image", "--stack", "0xffffff00", "0x101"],
    );
    assert_eq!(far.status, 3);
    assert!(far.err.contains("the stack ends past 2^32"), "{}", far.err);
}

#[test]
fn a_mark_without_a_known_stack_is_told_by_its_base() {
    let directory = directory("timer_mark");
    let mut state = with_code(&[store(2, 0x44), EBREAK]);
    state.set(2, Capability::tagged(START, MEMORY_ROOT));
    state.regs[MSHWM] = START + 0x83;
    state.regs[MSHWMB] = START + 0x21;
    write(&directory, &state);
    let answer = bench_in(
        &directory,
        &["run", "--state", "start", "--trace", "--save", "end"],
    );
    let said = "Stack: used down to 20000040, 31 bytes above its base 20000021.";
    assert!(
        answer.out.lines().any(|line| line == said),
        "{}",
        answer.out
    );
    let moved = answer.out.lines().next().unwrap_or("");
    assert!(moved.contains("mshwm := 20000040"), "{moved}");
    let value = bench_in(&directory, &["explain", "end", "--json"]).json();
    let wanted = json!({ "mark": START + 0x40, "base": START + 0x21, "left": 31, "used": null, "size": null });
    assert_eq!(value["stack"], wanted);
    assert_eq!(
        [&value["state"]["mshwm"], &value["state"]["mshwmb"]],
        [&json!(START + 0x40), &json!(START + 0x21)]
    );
}

#[test]
fn a_saved_state_keeps_its_own_mark() {
    let directory = directory("timer_own_mark");
    let mut state = with_code(&[store(2, 0x44), EBREAK]);
    state.set(2, Capability::tagged(START, MEMORY_ROOT));
    state.regs[MSHWM] = START + 0x83;
    state.regs[MSHWMB] = START + 0x21;
    write(&directory, &state);
    // The map says where the stack ends.
    std::fs::write(
        directory.join("map"),
        "region\tstack\t20000020\t00000080\trw\n",
    )
    .unwrap();
    let mapped = ["run", "--state", "start", "--map", "map"];
    let said = "Stack: 96 of 128 bytes used, down to 20000040, 31 bytes above its base 20000021.";
    let answer = bench_in(&directory, &mapped);
    assert!(
        answer.out.lines().any(|line| line == said),
        "{}",
        answer.out
    );
}

#[test]
fn what_a_trap_asked_for_is_found_with_the_timer_due() {
    let directory = directory("timer_probe");
    // The program has gone on since its trap, with interrupts on and the timer due: the jump is still worked out.
    let mut state = with_code(&[cjal(1022), EBREAK]);
    state.regs[MCAUSE] = 28;
    state.regs[MCAUSE + 1] = 32 * 32 + 1;
    state.regs[MSTATUS] = MIE;
    state.set_long(COMPARE, 0);
    let code = Capability::tagged(START, EXECUTABLE_ROOT & !(0xF << 18) | 1 << 18 | 128 << 9);
    state.set(lent::MEPCC, code);
    write(&directory, &state);
    let value = bench_in(&directory, &["explain", "start", "--json"]).json();
    assert_eq!(value["trap"]["action"], "jump");
    assert_eq!(value["trap"]["asked"]["address"], START + 1022);
}
