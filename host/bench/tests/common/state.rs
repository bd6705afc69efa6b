//! States for the tests, and the text of their files, written from docs/STATE.md.

use lent::{Capability, State, Window, EXECUTABLE_ROOT, MEMORY_ROOT, PCC};
use std::fmt::Write;

pub const START: u32 = 0x2000_0000;

const NAMES: [&str; 5] = ["PCC", "MTCC", "MTDC", "MScratchC", "MEPCC"];
/// The words after the capabilities; the first three are all that the versions before 3 have.
const CONTROL: [&str; 9] = [
    "mstatus",
    "mcause",
    "mtval",
    "mshwm",
    "mshwmb",
    "time_low",
    "time_high",
    "compare_low",
    "compare_high",
];
const OLD_WORDS: usize = 66;

/// A state with code at its start, PCC there and null registers otherwise.
pub fn with_code(code: &[u32]) -> State {
    let mut memory: Vec<u8> = code.iter().flat_map(|word| word.to_le_bytes()).collect();
    memory.resize(256, 0);
    let mut state = State::new(START, memory);
    state.set(PCC, Capability::tagged(START, EXECUTABLE_ROOT));
    state
}

/// A value with low above high, which no start may hold.
pub const LOW_ABOVE_HIGH: Capability = Capability {
    address: 0x0500_0000,
    metadata: 0x7E3C_0805,
    tag: 1,
};
/// CLC c2, 64(c1), which loads it.
pub const LOAD_IT: u32 = 0x0400_B103;

/// The same with that value in memory.
pub fn with_code_and_value(code: &[u32]) -> State {
    let mut state = with_code(code);
    state.set(1, Capability::tagged(START, MEMORY_ROOT));
    state.write_capability(START + 64, LOW_ABOVE_HIGH);
    state
}

/// The text of a state's file.
pub fn text(state: &State) -> String {
    let mut text = windowed(4, state);
    let _ = writeln!(text, "edition {:08x}", state.edition);
    body(text, state)
}

/// The text of a state's file of version 3, which has no edition.
pub fn text_of_version_3(state: &State) -> String {
    body(windowed(3, state), state)
}

/// The text of a state's file of version 2, which has no stack mark and no timer either.
pub fn text_of_version_2(state: &State) -> String {
    body(windowed(2, state), &without_new_words(state))
}

/// The lines before the edition's.
fn windowed(version: u32, state: &State) -> String {
    let mut text = format!("oddersnow state {version}\nstart {:08x}\n", state.start);
    let Window { start, size } = state.window;
    let _ = writeln!(text, "window {start:08x} {size:08x}");
    text
}

/// The text of a state's file of version 1, which has no window either.
pub fn old_text(state: &State) -> String {
    let text = format!("oddersnow state 1\nstart {:08x}\n", state.start);
    body(text, &without_new_words(state))
}

fn without_new_words(state: &State) -> State {
    State {
        regs: state.regs[..OLD_WORDS].to_vec(),
        ..state.clone()
    }
}

/// The lines from the registers on.
fn body(mut text: String, state: &State) -> String {
    let _ = writeln!(text, "registers {}", state.regs.len());
    for (place, words) in state.regs.chunks(3).enumerate().take(21) {
        let special = place
            .checked_sub(16)
            .map(|special| NAMES[special].to_string());
        text.push_str(&special.unwrap_or(format!("c{place}")));
        words
            .iter()
            .for_each(|word| write!(text, " {word:08x}").unwrap());
        text.push('\n');
    }
    for (name, word) in CONTROL.iter().zip(state.regs.iter().skip(63)) {
        let _ = writeln!(text, "{name} {word:08x}");
    }
    let buffers = [
        ("memory", &state.mem),
        ("tags", &state.tags),
        ("revoked", &state.revoked),
    ];
    for (name, bytes) in buffers {
        let _ = writeln!(text, "{name} {}", bytes.len());
        text.push_str(&rows(bytes));
    }
    let check = crc(text.as_bytes());
    text + &format!("check {check:08x}\n")
}

fn rows(bytes: &[u8]) -> String {
    let mut text = String::new();
    for (index, row) in bytes.chunks(32).enumerate() {
        if row.iter().any(|byte| *byte != 0) {
            let digits: String = row.iter().map(|byte| format!("{byte:02x}")).collect();
            let _ = writeln!(text, "{:08x} {digits}", 32 * index);
        }
    }
    text
}

/// CRC-32 by polynomial division, bit by bit from the front.
fn crc(bytes: &[u8]) -> u32 {
    let mut rest: u32 = !0;
    for byte in bytes {
        rest ^= u32::from(byte.reverse_bits()) << 24;
        for _ in 0..8 {
            let carry = rest >> 31 == 1;
            rest <<= 1;
            if carry {
                rest ^= 0x04C1_1DB7;
            }
        }
    }
    !rest.reverse_bits()
}
