//! The cutting program: lines of base and length in, lines of regions out (document 01,
//! "Cases").

#[cfg(test)]
mod tests;

use crate::capability::{cut, Cut};

/// The whole output of the cutting program for a whole input.
pub fn cutting_program(input: &[u8]) -> Vec<u8> {
    let mut output = b"cut\tlow\thigh\texact\n".to_vec();
    for (index, line) in lines(input).enumerate() {
        output.extend_from_slice(answer(index.saturating_add(1), line).as_bytes());
    }
    output
}

/// The lines of the input without their newlines. A last line without one counts; nothing
/// after the last newline is no line.
fn lines(input: &[u8]) -> impl Iterator<Item = &[u8]> {
    input
        .split_inclusive(|&byte| byte == b'\n')
        .map(|line| line.strip_suffix(b"\n").unwrap_or(line))
}

/// The output line for one input line.
fn answer(number: usize, line: &[u8]) -> String {
    match request(line).map(|(base, length)| cut(base, length)) {
        None => format!("{number}\tbad\tline\n"),
        Some(Cut::Refused(reason)) => format!("{number}\tbad\t{reason}\n"),
        Some(Cut::Region { low, high, exact }) => {
            let exact = if exact { "yes" } else { "no" };
            format!("{number}\t{low:08x}\t{high:09x}\t{exact}\n")
        }
    }
}

/// Base and length of a well-formed line: eight digits, a tab, eight digits, nothing else.
fn request(line: &[u8]) -> Option<(u32, u32)> {
    if line.len() != 17 || line.get(8) != Some(&b'\t') {
        return None;
    }
    Some((hex_word(line.get(..8)?)?, hex_word(line.get(9..)?)?))
}

/// The value of hex digits, all of them lower case.
pub(crate) fn hex_word(digits: &[u8]) -> Option<u32> {
    digits.iter().try_fold(0u32, |value, &digit| {
        let nibble = match digit {
            b'0'..=b'9' => digit - b'0',
            b'a'..=b'f' => digit - b'a' + 10,
            _ => return None,
        };
        Some(value << 4 | u32::from(nibble))
    })
}
