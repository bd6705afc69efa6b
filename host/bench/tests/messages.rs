//! What is said to someone who gives a wrong word, number, file or place: each message says what is wrong and where.

mod common;

use common::{bench_in, directory, examples, golden};
use std::fs;

/// Wrong commands, by words. `board` is a good sheet, `image` a good image, `state` a saved state; `text`, `empty`,
/// `folder` and `source` are not what is asked for.
const WRONG: &[&str] = &[
    "run text",
    "run source",
    "run empty",
    "run folder",
    "run --format elf text",
    "run --format hex text",
    "run --format labelled image",
    "run --start 1 image",
    "run --size 0 image",
    "run --size 2000000 image",
    "run --window 1 64 image",
    "run --stack 0xffffffff 16 image",
    "run --time -1 image",
    "run --steps -5 image",
    "run --steps x image",
    "run --last 0 image",
    "run --last x image",
    "run --entry 1 image",
    "run --map empty image",
    "run --map text image",
    "run --map folder image",
    "run --state text",
    "run --watch 1 2 --watch 3 4 --watch 5 6 image",
    "run --save folder image",
    "run --save nowhere/end image",
    "run --save image image",
    "run --report nowhere/page.html image",
    "run --break nowhere image",
    "run image image",
    "gdb --port 65536 image",
    "gdb --port x image",
    "reach image",
    "reach --map board --at nowhere image",
    "reach --map board --at 0x20000200 image",
    "reach --map board --at 1 image",
    "reach --map board --never interlock image",
    "reach --map board --never interlock:q image",
    "reach --map board --never nowhere:w image",
    "reach --map text image",
    "reach --map board --state text",
    "reach --map board --size 0 image",
    "reach --map board --report nowhere/page.html image",
    "explain empty",
    "explain text",
    "explain board",
    "explain folder",
    "explain state --with image",
    "sweep text",
    "sweep state --save folder",
    "cut x 1",
    "cut -1 1",
    "cut 0x100000000 1",
    "cut 0xffffffff 2",
    "cap 0 0x1ffffffff",
    "sheet check empty",
    "sheet check text",
    "sheet compare board text",
    "fit board image",
    "fit text image",
    "fit board folder",
    "shelf nowhere --board board",
    "shelf text --board board",
    "shelf folder --board board",
    "shelf full --board text",
    "shelf full --board board --jobs 0",
    "shelf full --board board --never interlock:w",
    "shelf full --board board --handover 0 --never nowhere:w",
    "shelf full --board board --report text",
    "shelf full --board board --report full",
    "shelf full --board board --results folder",
    "shelf full --board board --results nowhere/results",
    "shelf full --board board --results text",
    "list empty",
    "list source",
    "list --start x image",
    "assemble text",
    "assemble folder",
    "assemble listing -o nowhere/bytes",
    "assemble listing -o listing",
    "completions tcsh",
];

#[test]
fn every_message_says_what_is_wrong_and_where() {
    let directory = directory("messages");
    let copies = [
        ("interlock_small.map", "board"),
        ("interlock_image.hex", "image"),
        ("interlock_image.s", "source"),
    ];
    for (from, to) in copies {
        fs::copy(examples().join(from), directory.join(to)).expect("a copy");
    }
    for (name, text) in [
        ("empty", ""),
        ("text", "hello\n"),
        ("listing", "addi\t1\t0\t1\n"),
    ] {
        fs::write(directory.join(name), text).expect("a file");
    }
    for folder in ["folder", "full"] {
        fs::create_dir(directory.join(folder)).expect("a folder");
    }
    fs::copy(directory.join("image"), directory.join("full/image")).expect("a copy");
    bench_in(&directory, &["run", "image", "--save", "state"]);
    let mut said = String::new();
    for words in WRONG {
        let arguments: Vec<&str> = words.split(' ').collect();
        let answer = bench_in(&directory, &arguments);
        assert!(
            answer.status >= 2 && answer.out.is_empty(),
            "{words}: {}",
            answer.text()
        );
        said.push_str(&format!("== {words}\n{}", answer.text()));
    }
    golden("messages", &said);
}

#[test]
fn a_port_that_is_taken_is_named_with_what_to_do() {
    let directory = directory("messages_port");
    fs::copy(
        examples().join("interlock_image.hex"),
        directory.join("image"),
    )
    .expect("a copy");
    let taken = std::net::TcpListener::bind("127.0.0.1:0").expect("a port");
    let port = taken.local_addr().expect("its number").port().to_string();
    let answer = bench_in(&directory, &["gdb", "--port", &port, "image"]);
    let said =
        format!("bench: port {port}: something listens there already; --port 0 takes a free one\n");
    assert_eq!((answer.status, answer.err), (3, said));
}
