//! Runs that someone looks at: breakpoints, the last steps, what was executed.

mod common;

use common::elf::{self, Symbol};
use common::state::{text, with_code, with_code_and_value, LOAD_IT, START};
use common::words::{addi, EBREAK};
use common::{bench_in, directory, examples, golden, shell_in, SMALL};
use serde_json::json;

fn small(further: &[&str]) -> common::Answer {
    bench_in(&examples(), &[&SMALL[..], further].concat())
}

#[test]
fn the_demonstration_with_its_last_steps_and_what_it_executed() {
    let answer = small(&["--last", "4", "--cover"]);
    golden("last_and_cover", &answer.text());
}

#[test]
fn the_same_as_json() {
    let value = small(&["--last", "2", "--cover", "--json"]).json();
    assert_eq!(value["end"], "trap");
    let last = &value["last"];
    assert_eq!(last[0]["instruction"], "cjal 1 -44");
    assert_eq!(last[1]["number"], 376);
    assert_eq!(last[1]["trap"], "store outside the bounds of c2");
    assert_eq!(last[2], json!(null));
    let rows = value["cover"]["rows"].as_array().expect("rows");
    let image = rows.iter().find(|row| row["name"] == "image");
    let image = image.expect("the region of the image");
    assert_eq!(
        (&image["bytes"], &image["executed"]),
        (&json!(76), &json!(56))
    );
    let missed = json!([{ "start": 0x2000_0108, "end": 0x2000_010C }, { "start": 0x2000_013C, "end": 0x2000_014C }]);
    assert_eq!(image["missed"], missed);
    let words = value["cover"]["words"].as_array().expect("words");
    let plan = words.iter().find(|word| word["address"] == 0x2000_010C);
    // The first word of plan retired in each call but the last, which trapped.
    assert_eq!(plan.expect("plan")["times"], 28);
    let plain = small(&["--json"]).json();
    assert_eq!(
        (&plain["last"], &plain["cover"]),
        (&json!(null), &json!(null))
    );
    assert_eq!(plain["state"], value["state"]);
}

#[test]
fn a_run_goes_on_from_a_breakpoint_to_the_next_and_leaves_what_one_run_leaves() {
    let folder = directory("breaks");
    let saved = folder.join("state").display().to_string();
    let first = small(&["--break", "0x2000010c", "--save", &saved]);
    assert_eq!(first.status, 0);
    assert!(
        first
            .out
            .starts_with("39 steps retired, 0 trapped. Stopped before the step at 2000010c.\n"),
        "{}",
        first.out
    );
    let again = [
        "run",
        "--json",
        "--state",
        &saved,
        "--save",
        &saved,
        "--break",
        "0x2000010c",
    ];
    let mut retired = 39;
    let mut value = json!({ "end": "break" });
    while value["end"] == "break" {
        value = bench_in(&folder, &again).json();
        retired += value["retired"].as_u64().expect("a count");
    }
    assert_eq!((value["end"].as_str(), retired), (Some("trap"), 375));
    let whole = small(&["--json"]).json();
    assert_eq!(value["state"], whole["state"]);
}

/// A symbol of the image's section, so far into it.
fn symbol(name: &str, place: u32, size: u32) -> Symbol<'_> {
    Symbol {
        name,
        address: START + place,
        size,
        section: 1,
    }
}

#[test]
fn a_breakpoint_stands_at_a_symbol() {
    let folder = directory("break_at_symbol");
    let count = addi(10, 10, 1);
    let asked_for = Symbol {
        section: 0,
        ..symbol("elsewhere", 8, 4)
    };
    let symbols = [symbol("work", 4, 12), symbol("inside", 8, 0), asked_for];
    let image = elf::program(START, &[count, count, count, EBREAK], &symbols);
    std::fs::write(folder.join("image"), image).expect("an image");
    for (name, told) in [
        (
            "work",
            "1 step retired, 0 trapped. Stopped before the step at 20000004.\n",
        ),
        (
            "inside",
            "2 steps retired, 0 trapped. Stopped before the step at 20000008.\n",
        ),
    ] {
        let answer = bench_in(&folder, &["run", "image", "--break", name]);
        assert_eq!((answer.status, answer.err.as_str()), (0, ""), "{name}");
        assert!(answer.out.starts_with(told), "{}", answer.out);
    }
    let refused = bench_in(&folder, &["run", "image", "--break", "elsewhere"]);
    assert_eq!((refused.status, refused.out.as_str()), (3, ""));
}

/// An image has whatever symbols it likes, and none of them moves an address that is written as a number.
#[test]
fn a_number_is_an_address_whatever_symbols_are_called() {
    let folder = directory("numbers_as_symbols");
    let count = addi(10, 10, 1);
    let named = ["0x20000004", "536870916", "536,870,916"];
    let refused = ["0x20000005", "0x100000000"];
    let symbols = named.iter().chain(&refused);
    let symbols: Vec<Symbol> = symbols.map(|name| symbol(name, 8, 0)).collect();
    let image = elf::program(START, &[count, count, count, EBREAK], &symbols);
    std::fs::write(folder.join("image"), image).expect("an image");
    for option in ["--break", "--exit-at"] {
        for name in named {
            let answer = bench_in(&folder, &["run", "image", option, name]);
            let told = answer.out.starts_with("1 step retired, 0 trapped.");
            assert!(told, "{option} {name}: {}", answer.out);
        }
        for name in refused {
            let answer = bench_in(&folder, &["run", "image", option, name]);
            assert_eq!((answer.status, answer.out.as_str()), (3, ""));
            let said = format!("{option} {name}: as a number it is ");
            assert!(answer.err.contains(&said), "{}", answer.err);
        }
    }
}

/// Addresses are walked as far as there is memory: symbols that say they are longer cost no more.
#[test]
fn symbols_of_4_gigabytes_are_covered_at_once() {
    let folder = directory("cover_huge");
    let names: Vec<String> = (0..3).map(|number| format!("huge{number}")).collect();
    let symbols: Vec<Symbol> = names.iter().map(|name| symbol(name, 0, u32::MAX)).collect();
    let image = elf::program(START, &[addi(10, 10, 1), EBREAK], &symbols);
    std::fs::write(folder.join("image"), image).expect("an image");
    // By the processor's time, which other work on the host does not add to.
    let answer = shell_in(&folder, "ulimit -t 5; exec $BENCH run image --cover");
    let row = "       4 of       8   50%  [20000000, 11fffffff)  huge2, first not at 20000004\n";
    assert!(answer.out.ends_with(row), "{}", answer.out);
}

/// Where each line would be made with all steps before it again, they end after some thousands, and that is said; the run
/// is the same.
#[test]
fn a_long_trace_after_a_value_that_no_start_may_hold_ends_in_time() {
    let folder = directory("trace_unsound");
    // CJAL c0, .-4.
    let state = with_code_and_value(&[LOAD_IT, addi(10, 10, 1), 0xFFDF_F06F]);
    std::fs::write(folder.join("start"), text(&state)).expect("a state");
    let run = "exec $BENCH run --state start --steps 500000 --save";
    let answer = shell_in(&folder, &format!("ulimit -t 40; {run} traced --trace"));
    assert_eq!(answer.status, 0, "{}", answer.err);
    let lines: Vec<&str> = answer.out.lines().collect();
    let shown = lines.iter().take_while(|line| !line.contains("not shown"));
    assert_eq!(shown.count(), 32_769);
    let gaps = lines.iter().filter(|line| line.contains(", not shown: "));
    let gaps: Vec<&&str> = gaps.collect();
    assert!(
        gaps[0].starts_with("   32770  to 32771, not shown: "),
        "{}",
        gaps[0]
    );
    assert!(gaps.len() < 40, "{gaps:?}");
    assert!(answer.out.contains("500,000 steps retired, 0 trapped."));
    let plain = shell_in(&folder, &format!("{run} plain"));
    assert_eq!(plain.status, 0, "{}", plain.err);
    let saved = |name: &str| std::fs::read(folder.join(name)).expect("a saved state");
    assert!(saved("traced") == saved("plain"));
}

#[test]
fn a_trace_ends_at_a_breakpoint() {
    let folder = directory("trace_to_break");
    let code = [addi(10, 10, 1), addi(10, 10, 2), EBREAK];
    std::fs::write(folder.join("state"), text(&with_code(&code))).expect("a state");
    let traced = [
        "run",
        "--state",
        "state",
        "--trace",
        "--break",
        "0x20000004",
        "--break",
        "0x20000008",
    ];
    let answer = bench_in(&folder, &traced);
    let lines: Vec<&str> = answer.out.lines().collect();
    assert!(
        lines[0].contains("20000000  00150513  addi 10 10 1"),
        "{}",
        answer.out
    );
    assert!(lines[1].starts_with("1 step retired, 0 trapped. Stopped before the step at 20000004."));
    let through = [
        "run",
        "--state",
        "state",
        "--trace",
        "--through-traps",
        "--steps",
        "4",
        "--last",
        "9",
    ];
    let answer = bench_in(&folder, &through);
    assert_eq!(answer.status, 1);
    assert!(
        answer.out.contains("The last steps, 4 of 4:"),
        "{}",
        answer.out
    );
}

// The second step loads a value with low above high, which no start may hold.
#[test]
fn a_run_that_is_looked_at_goes_on_after_a_load_of_what_no_start_may_hold() {
    let folder = directory("looks_unsound");
    let count = addi(10, 10, 1);
    let state = with_code_and_value(&[count, LOAD_IT, count, count, EBREAK]);
    std::fs::write(folder.join("start"), text(&state)).expect("a state");
    let run = |further: &[&str]| {
        let arguments = [&["run", "--state", "start", "--json"][..], further].concat();
        let answer = bench_in(&folder, &arguments);
        assert_eq!(answer.err, "", "{further:?}");
        answer.json()
    };
    let plain = run(&[]);
    let seen = run(&["--last", "3", "--cover", "--break", "0x20000010"]);
    assert_eq!(
        (&seen["end"], &seen["retired"]),
        (&json!("break"), &json!(4))
    );
    let (last, cover) = (&seen["last"], &seen["cover"]);
    let told = [0, 1, 2].map(|step| last[step]["address"].as_u64().expect("an address"));
    assert_eq!(told, [0x2000_0004, 0x2000_0008, 0x2000_000C]);
    assert_eq!(last[0]["instruction"], "clc 2 1 64");
    assert_eq!(cover["outside"], 16);
    for further in [
        &["--last", "9"][..],
        &["--cover"],
        &["--break", "0x20000040"],
    ] {
        let looked = run(further);
        for part in ["end", "retired", "trapped", "trap", "state"] {
            assert_eq!(looked[part], plain[part], "{further:?}");
        }
    }
    // All steps were made: that the next one has no start is not told.
    assert_eq!(run(&["--steps", "2", "--cover"])["end"], "steps");
}

#[test]
fn a_place_that_is_none_is_refused_before_the_run() {
    for (place, reason) in [
        (
            "plan",
            "no symbol or line of an image has that name, and as a number it is not a decimal number",
        ),
        ("0x20000001", "as a number it is odd"),
        ("0x100000000", "as a number it is not below 2^32"),
    ] {
        let answer = small(&["--break", place]);
        assert_eq!((answer.status, answer.out.as_str()), (3, ""));
        assert!(
            answer.err.contains(&format!("--break {place}: ")),
            "{}",
            answer.err
        );
        assert!(answer.err.contains(reason), "{}", answer.err);
    }
    for last in ["0", "1000001", "x"] {
        assert_eq!(small(&["--last", last]).status, 3);
    }
}
