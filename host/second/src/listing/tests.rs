use super::*;

const ROOM: usize = 4096;

/// The answer of a function and what it wrote.
fn made(of: fn(&[u8], &mut [u8]) -> u64, given: &[u8]) -> (u64, Vec<u8>) {
    let mut out = vec![0xA5; ROOM];
    let answer = of(given, &mut out);
    let written = if answer >> 48 == 0 {
        answer as usize
    } else {
        0
    };
    assert!(out[written..].iter().all(|&byte| byte == 0xA5));
    out.truncate(written);
    (answer, out)
}

fn listed(code: &[u8]) -> String {
    String::from_utf8(made(list, code).1).expect("a listing is text")
}

fn bytes(words: &[u32]) -> Vec<u8> {
    let word = |&word: &u32| word.to_le_bytes()[..length(word) as usize].to_vec();
    words.iter().flat_map(word).collect()
}

#[test]
fn words_and_their_lines() {
    let cases = [
        (0xFFF5_0513, "addi\t10\t10\t-1"),
        (0x0000_8067, "cjalr\t0\t1\t0"),
        (0xFE00_0EE3, "beq\t0\t0\t-4"),
        (0x0051_2423, "csw\t2\t5\t8"),
        (0x8000_0537, "lui\t10\t-524288"),
        (0x0FF0_000F, "fence\t15\t15"),
        (0x0330_000F, "fence\t3\t3"),
        (0x8330_000F, "fence.tso"),
        (0x3004_6073, "csrrsi\t0\t768\t8"),
        (0x3001_1073, "csrrw\t0\t2\t768"),
        (0xBC12_95F3, "csrrw\t11\t5\t3009"),
        (0xBC2F_F073, "csrrci\t0\t3010\t31"),
        (0xBC01_1073, "bc011073"),
        (0xBC31_1073, "bc311073"),
        (0x03F0_02DB, "cspecialrw\t5\t0\t31"),
        (0xFFF3_22DB, "csetboundsimm\t5\t6\t4095"),
        (0x41F5_5513, "srai\t10\t10\t31"),
        (0x0001, "c.nop"),
        (0x107D, "c.nop\t-1"),
        (0x4501, "c.li\t10\t0"),
        (0x8082, "c.jr\t1"),
        (0xBFFD, "c.j\t-2"),
        (0x7179, "c.addi16sp\t-48"),
        (0x0048, "c.addi4spn\t10\t4"),
        (0x757D, "c.lui\t10\t-1"),
        (0x0000, "0000"),
        (0xFFFF_FFFF, "ffffffff"),
    ];
    for (word, line) in cases {
        let (code, line) = (bytes(&[word]), format!("{line}\n"));
        assert_eq!(listed(&code), line, "{word:x}");
        assert_eq!(made(assemble, line.as_bytes()).1, code, "{line}");
    }
}

#[test]
fn every_half_is_kept() {
    for half in (0..1 << 16).filter(|half| half & 3 != 3) {
        let code = bytes(&[half]);
        assert_eq!(
            made(assemble, listed(&code).as_bytes()).1,
            code,
            "{half:04x}"
        );
    }
}

#[test]
fn fences_have_a_chosen_word() {
    let cases = [
        (0x833F_8F8F, "fence.tso\n", 0x8330_000F),
        (0x833F_800F, "fence.tso\n", 0x8330_000F),
        (0x033F_8F8F, "fence\t3\t3\n", 0x0330_000F),
        (0x9330_000F, "fence\t3\t3\n", 0x0330_000F),
        (0x8230_000F, "fence\t2\t3\n", 0x0230_000F),
        (0x8310_000F, "fence\t3\t1\n", 0x0310_000F),
    ];
    for (word, line, chosen) in cases {
        assert_eq!(listed(&bytes(&[word])), line, "{word:x}");
        assert_eq!(made(assemble, line.as_bytes()).1, bytes(&[chosen]));
    }
}

#[test]
fn refusals() {
    assert_eq!(made(list, &[]).0, 0);
    assert_eq!(made(list, &[1]).0, 15 << 48);
    assert_eq!(made(list, &[1, 0, 0x13, 0, 0]).0, 15 << 48 | 2);
    assert_eq!(made(assemble, b"c.nop").0, 13 << 48 | 1);
    assert_eq!(made(assemble, b"c.nop\n\n").0, 13 << 48 | 2);
    let bad = [
        "addi\t1\t1\t01",
        "addi\t1\t1\t+1",
        "addi\t1\t1\t-0",
        "addi\t1\t1\t2048",
        "addi\t1\t16\t0",
    ];
    for line in bad.into_iter().chain([
        "00000013",
        "0001",
        "FFFFFFFF",
        "00000000",
        "0003",
        "fence\t3",
        "fence.tso\t3\t3",
    ]) {
        let text = format!("c.nop\n{line}\n");
        assert_eq!(made(assemble, text.as_bytes()).0, 13 << 48 | 2, "{line}");
    }
    let mut out = [7; 5];
    assert_eq!((list(&[1, 0], &mut out), out), (10 << 48, [7; 5]));
    assert_eq!((assemble(b"wfi\n", &mut out[..3]), out), (10 << 48, [7; 5]));
}
