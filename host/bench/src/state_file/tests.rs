//! State files: what is written is read again, and damage is told.

use super::*;

fn sample() -> State {
    let memory: Vec<u8> = (0..256u32).map(|place| (place * 7 % 31) as u8).collect();
    let mut state = State::reset(0x2000_0000, memory, 0x2000_0040);
    state.mem[64..128].fill(0);
    state.tags[3] = 0x81;
    state.revoked[0] = 0x10;
    state.regs[65] = 0xFFFF_FFFF;
    state
}

#[test]
fn the_check_word_is_crc_32() {
    assert_eq!(checksum(b"123456789"), 0xCBF4_3926);
}

#[test]
fn what_is_written_is_read_again() {
    let odd = |regs: usize, memory: usize, tags: usize| State {
        regs: vec![5; regs],
        start: 4,
        mem: vec![9; memory],
        tags: vec![1; tags],
        window: Window { start: 7, size: !0 },
        revoked: Vec::new(),
        edition: 9,
    };
    let states = [
        sample(),
        odd(0, 0, 0),
        odd(65, 33, 1),
        odd(67, 1, 40),
        odd(5, 31, 0),
    ];
    for state in states {
        let text = write(&state);
        assert_eq!(read(text.as_bytes()), Ok(state), "{text}");
    }
}

/// The sample as a version before 3 has it, without the new words, and as it is read, with zeros there.
fn old_sample() -> (State, State) {
    let (mut old, mut read) = (sample(), sample());
    old.regs.truncate(MSHWM);
    read.regs[MSHWM..].fill(0);
    (old, read)
}

#[test]
fn a_file_of_version_2_is_read_with_zeros_for_the_mark_and_the_timer() {
    let (old, as_read) = old_sample();
    let text = write_as(Version::Two, &old);
    assert!(text.contains("registers 66\n") && text.contains("mtval ffffffff\nmemory"));
    assert_eq!(read(text.as_bytes()), Ok(as_read));
    // Another number of words stays what it was: the machine refuses it.
    for words in [65, 67] {
        let mut other = sample();
        other.regs.resize(words, 7);
        other.regs.truncate(words);
        let text = write_as(Version::Two, &other);
        assert_eq!(read(text.as_bytes()), Ok(other));
    }
}

#[test]
fn a_file_of_version_3_or_4_with_66_words_stays_one() {
    let (old, _) = old_sample();
    for version in [Version::Three, Version::Four] {
        let text = write_as(version, &old);
        assert!(text.contains("registers 66\n"));
        assert_eq!(read(text.as_bytes()), Ok(old.clone()), "{version:?}");
    }
    assert!(write(&old).starts_with("oddersnow state 4\n"));
}

#[test]
fn the_new_words_have_their_names() {
    let mut state = sample();
    for (place, word) in (MSHWM..WORDS).zip(1..) {
        state.regs[place] = word;
    }
    let text = write(&state);
    let lines = "mtval ffffffff\nmshwm 00000001\nmshwmb 00000002\ntime_low 00000003\n\
                 time_high 00000004\ncompare_low 00000005\ncompare_high 00000006\nmemory 256\n";
    assert!(text.contains(lines), "{text}");
    assert_eq!(read(text.as_bytes()), Ok(state));
}

#[test]
fn a_file_of_version_1_has_the_bits_of_all_of_memory() {
    let (old, as_read) = old_sample();
    assert_eq!(old.window, Window::whole(256));
    let text = write_as(Version::One, &old);
    assert!(text.starts_with("oddersnow state 1\nstart 20000000\nregisters 66\n"));
    assert_eq!(read(text.as_bytes()), Ok(as_read));
    let window = "window 00000000 00000100\n";
    let body = &text[..text.rfind("check").unwrap()];
    let both = body.replacen("registers", &format!("{window}registers"), 1);
    assert!(read(&checked(&both)).is_err());
    let mixed = both.replacen("state 1", "state 2", 1);
    assert!(read(&checked(&mixed)).is_ok());
}

#[test]
fn a_file_before_version_4_has_the_reports_edition() {
    let state = sample();
    let text = write_as(Version::Three, &state);
    assert!(text.starts_with(
        "oddersnow state 3\nstart 20000000\nwindow 00000000 00000100\nregisters 72\n"
    ));
    assert_eq!(read(text.as_bytes()), Ok(state));
    let (old, as_read) = old_sample();
    assert_eq!(as_read.edition, REPORT_EDITION);
    for version in [Version::One, Version::Two] {
        let text = write_as(
            version,
            &State {
                edition: 1,
                ..old.clone()
            },
        );
        assert!(!text.contains("edition"), "{text}");
        assert_eq!(read(text.as_bytes()), Ok(as_read.clone()), "{version:?}");
    }
    let later = State {
        edition: 1,
        ..sample()
    };
    let text = write(&later);
    assert!(text.contains("\nedition 00000001\n"));
    assert_eq!(read(text.as_bytes()), Ok(later));
}

#[test]
fn every_changed_bit_and_every_cut_is_told() {
    let text = write(&sample()).into_bytes();
    for place in 0..text.len() {
        for bit in 0..8 {
            let mut damaged = text.clone();
            damaged[place] ^= 1 << bit;
            assert!(read(&damaged).is_err(), "byte {place}, bit {bit}");
        }
        assert!(read(&text[..place]).is_err(), "cut at {place}");
    }
}

/// A text with a right check word.
fn checked(body: &str) -> Vec<u8> {
    format!("{body}check {:08x}\n", checksum(body.as_bytes())).into_bytes()
}

#[test]
fn a_right_check_word_does_not_make_another_form_good() {
    let text = write(&sample());
    let body = &text[..text.rfind("check").unwrap()];
    assert!(read(&checked(body)).is_ok());
    for (old, new) in [
        ("state 4", "state 1"),
        ("state 4", "state 2"),
        ("state 4", "state 3"),
        ("state 4", "state 5"),
        ("edition 00000000\n", ""),
        ("edition 00000000", "edition 0"),
        ("start 2", "start  2"),
        ("window 00000000 00000100", "window 00000000"),
        ("window 00000000 00000100", "window 0 100"),
        ("window 00000000 00000100\n", ""),
        ("registers 72", "registers 072"),
        ("registers 72", "registers 66"),
        ("mshwm 00000000", "word66 00000000"),
        ("c1 ", "c2 "),
        ("memory 256", "memory 255"),
        ("memory 256", "memory 99999999999999999999"),
        ("memory 256", "memory 16777217"),
        ("tags 4\n", "tags 4\n00000000 00\n"),
        ("000000e0 ", "00000100 "),
        ("ffffffff", "FFFFFFFF"),
        ("mtval ffffffff", "mtval ffffffff 00000000"),
        ("revoked 4\n", "revoked 4\n\n"),
    ] {
        assert!(body.contains(old), "{old}");
        let changed = body.replacen(old, new, 1);
        assert!(read(&checked(&changed)).is_err(), "{old} to {new}");
    }
    assert!(read(&checked(&format!("{body}more\n"))).is_err());
}

#[test]
fn a_line_with_a_word_too_few_or_too_many_is_named() {
    let text = write(&sample());
    let body = &text[..text.rfind("check").unwrap()];
    let line = "c7 00000000 00000000 00000000\n";
    for (kept, more) in [(line.len() - 10, "\n"), (line.len() - 1, " 00000000\n")] {
        let changed = body.replacen(line, &format!("{}{more}", &line[..kept]), 1);
        assert_ne!(changed, body);
        let reason = read(&checked(&changed)).unwrap_err();
        assert!(reason.starts_with("line 13 "), "{reason}");
    }
}

#[test]
fn a_count_is_at_most_2_to_the_24() {
    let mut state = sample();
    state.revoked = vec![0; 1 << 24];
    let text = write(&state);
    assert_eq!(read(text.as_bytes()), Ok(state));
    let body = text[..text.rfind("check").unwrap()].replace("revoked 16777216", "revoked 16777217");
    let line = body.lines().count();
    let reason = read(&checked(&body)).unwrap_err();
    assert!(
        reason.starts_with(&format!("line {line} is not the line")),
        "{reason}"
    );
}
