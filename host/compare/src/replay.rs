//! A case as text that anyone can rerun: the call, the start, the window, the edition, and the size of each
//! buffer with its words or bytes that are not zero.

use crate::state::{Call, Case};
use lent::{word_name, State, Window};
use std::fmt::Write;

/// Bytes on a line.
const LINE: usize = 32;

/// The text of a case.
pub fn write(case: &Case) -> String {
    let mut text = String::from("# A case of the machine comparison; numbers are hexadecimal.\n");
    let _ = match case.call {
        Call::Step => writeln!(text, "step"),
        Call::Run(steps) => writeln!(text, "run {steps:x}"),
    };
    let state = &case.state;
    let _ = writeln!(text, "start {:08x}", state.start);
    let Window { start, size } = state.window;
    let _ = writeln!(text, "window {start:08x} {size:08x}");
    let _ = writeln!(text, "edition {:08x}", state.edition);
    let _ = writeln!(text, "words {:x}", state.regs.len());
    for (index, word) in state.regs.iter().enumerate().filter(|(_, &word)| word != 0) {
        let _ = writeln!(text, "word {index:x} {word:08x} # {}", word_name(index));
    }
    write_bytes(&mut text, "memory", &state.mem);
    write_bytes(&mut text, "tags", &state.tags);
    write_bytes(&mut text, "revoked", &state.revoked);
    text
}

fn write_bytes(text: &mut String, name: &str, bytes: &[u8]) {
    let _ = writeln!(text, "{name} {:x}", bytes.len());
    for (index, line) in bytes.chunks(LINE).enumerate() {
        if line.iter().any(|&byte| byte != 0) {
            let digits: String = line.iter().map(|byte| format!("{byte:02x}")).collect();
            let _ = writeln!(text, "bytes {:x} {digits}", index * LINE);
        }
    }
}

/// The case of a text, or the line that is no part of one.
pub fn read(text: &str) -> Result<Case, String> {
    let mut case = Case::default();
    // The buffer that `bytes` lines fill: 0 memory, 1 tags, 2 revocation bits.
    let mut filling = 0;
    for line in text.lines() {
        let plain = line.split('#').next().unwrap_or("");
        let parts: Vec<&str> = plain.split_whitespace().collect();
        read_line(&mut case, &mut filling, &parts).ok_or(format!("no line of a case: {line}"))?;
    }
    Ok(case)
}

fn read_line(case: &mut Case, filling: &mut usize, parts: &[&str]) -> Option<()> {
    let state = &mut case.state;
    match *parts {
        [] => {}
        ["step"] => case.call = Call::Step,
        ["run", steps] => case.call = Call::Run(number(steps)?),
        ["start", start] => state.start = number(start)?,
        ["window", start, size] => {
            state.window = Window {
                start: number(start)?,
                size: number(size)?,
            };
        }
        ["edition", edition] => state.edition = number(edition)?,
        ["words", count] => state.regs.resize(number(count)? as usize, 0),
        ["word", index, word] => *state.regs.get_mut(number(index)? as usize)? = number(word)?,
        ["bytes", at, digits] => read_bytes(buffer(state, *filling), number(at)? as usize, digits)?,
        [name, size] => {
            let names = ["memory", "tags", "revoked"];
            *filling = names.iter().position(|&known| known == name)?;
            buffer(state, *filling).resize(number(size)? as usize, 0);
        }
        _ => return None,
    }
    Some(())
}

fn buffer(state: &mut State, index: usize) -> &mut Vec<u8> {
    match index {
        0 => &mut state.mem,
        1 => &mut state.tags,
        _ => &mut state.revoked,
    }
}

fn read_bytes(bytes: &mut [u8], at: usize, digits: &str) -> Option<()> {
    for (index, pair) in digits.as_bytes().chunks(2).enumerate() {
        let pair = std::str::from_utf8(pair).ok()?;
        *bytes.get_mut(at + index)? = u8::from_str_radix(pair, 16).ok()?;
    }
    Some(())
}

fn number(digits: &str) -> Option<u32> {
    u32::from_str_radix(digits, 16).ok()
}

#[cfg(test)]
mod tests {
    use super::*;
    use crate::cases::make;
    use crate::instructions::table;

    #[test]
    fn every_kind_of_case_reads_as_it_was_written() {
        let table = table();
        let mut case = Case::default();
        for number in 1..2000 {
            make(&table, 1, number, &mut case);
            assert_eq!(read(&write(&case)).unwrap(), case);
        }
        assert!(read("word 1 2").is_err());
        assert!(read("steps 1").is_err());
    }
}
