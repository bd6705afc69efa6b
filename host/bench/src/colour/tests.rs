use super::*;

/// A painted line, with < before what is painted and > after it.
fn shown(line: &str) -> String {
    let text = painted_where(true, line).into_owned();
    let styles = [BAD, GOOD, CHANGED, HEAD, FAINT];
    let text = styles
        .iter()
        .fold(text, |text, style| text.replace(style, "<"));
    text.replace(PLAIN, ">")
}

#[test]
fn what_stands_out_is_painted_and_nothing_else() {
    let lines = [
        (
            "Trap: store outside the bounds of c2.\n",
            "<Trap: store outside the bounds of c2.>\n",
        ),
        ("            ^^ ^^\n", "<            ^^ ^^>\n"),
        (
            "  asked    [20000478, 20000480)\n",
            "  <asked>    [20000478, 20000480)\n",
        ),
        (
            "  20000100  02800513  addi 10 0 40",
            "  <20000100>  02800513  addi 10 0 40",
        ),
        (
            "364 steps retired, 1 trapped. Stopped",
            "<364 steps retired, 1 trapped.> Stopped",
        ),
        (
            "  stack  [20000480, 20002000) rw  no: stack is too short",
            "  stack  [20000480, 20002000) rw<  no: stack is too short>",
        ),
        ("a.img does not fit b.map.", "a.img <does not fit> b.map."),
        ("a.img fits b.map.", "a.img< fits >b.map."),
        (
            "interlock is never written.",
            "interlock< is never >written.",
        ),
        (
            "interlock may be written, by MTDC [00000000, 100000000).",
            "interlock< may be written, by >MTDC [00000000, 100000000).",
        ),
        (
            "     365  2000010c  fe113c23  csc 2 1 -8  trap: store",
            "     365  2000010c  fe113c23  csc 2 1 -8<  trap: store>",
        ),
        (
            "  c2         20000480  1    [20000480, 20000800)",
            "  c2         20000480  1    [20000480, 20000800)",
        ),
        ("", ""),
        ("\n", "\n"),
    ];
    for (line, painted) in lines {
        assert_eq!(shown(line), painted);
    }
}

#[test]
fn a_run_without_a_trap_is_good() {
    let [good, bad] = [
        "676 steps retired, 0 trapped.",
        "676 steps retired, 10 trapped.",
    ]
    .map(painted);
    assert!(
        good.starts_with(GOOD) && bad.starts_with(BAD),
        "{good}{bad}"
    );
}

#[test]
fn a_program_is_told_before_its_words_are_read() {
    let of = |words: &[&str]| of_usage(words.iter().map(OsString::from));
    assert_eq!(of(&["bench", "--color", "never"]), clap::ColorChoice::Never);
    assert_eq!(of(&["bench", "--color=always"]), clap::ColorChoice::Always);
    assert_eq!(of(&["bench", "never"]), clap::ColorChoice::Auto);
}

#[test]
fn only_a_terminal_is_painted_unless_asked() {
    assert!(
        wanted(When::Always, false) && !wanted(When::Never, true) && !wanted(When::Auto, false)
    );
}

#[test]
fn lines_are_painted_as_they_are_written() {
    let mut painter = Painter::new(Vec::new());
    for part in ["Tr", "ap: x.\nno", "\n", "end"] {
        painter.write_all(part.as_bytes()).unwrap();
    }
    painter.flush().unwrap();
    assert_eq!(painter.out, b"Trap: x.\nno\nend");
}
