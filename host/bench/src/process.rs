//! What Linux tells of the process itself.

use std::fs;

/// The number behind a word in the process's status, of digits to a base; none where the system does not tell it.
pub fn number(word: &str, base: u32) -> Option<u64> {
    let status = fs::read_to_string("/proc/self/status").ok()?;
    let digits = status.lines().find_map(|line| line.strip_prefix(word))?;
    u64::from_str_radix(digits.trim(), base).ok()
}
