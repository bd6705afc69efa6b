//! Calls under qemu-riscv32: records to the driver's standard input, records from its output.

use crate::image::words;
use crate::tools;
use std::fs::File;
use std::path::Path;
use std::process::Command;

/// The words from the stack pointer on that a record has; driver.S has the same number.
pub const WINDOW: usize = 16;

/// One call, before or after.
#[derive(Clone, PartialEq, Eq, Debug)]
pub struct Record {
    /// Before: the routine's address. After: where EBREAK stopped it, or 0 if it returned.
    pub place: u32,
    /// x0 to x15; before, x1 and x2 are not taken.
    pub registers: [u32; 16],
    pub window: [u32; WINDOW],
}

impl Record {
    fn bytes(&self) -> impl Iterator<Item = u8> + '_ {
        let first = std::iter::once(&self.place);
        let words = first.chain(&self.registers[1..]).chain(&self.window);
        words.flat_map(|word| word.to_le_bytes())
    }

    fn of(words: &[u32]) -> Option<Record> {
        let (place, rest) = words.split_first()?;
        let (given, window) = rest.split_at_checked(15)?;
        let mut registers = [0; 16];
        registers[1..].copy_from_slice(given);
        Some(Record {
            place: *place,
            registers,
            window: window.try_into().ok()?,
        })
    }
}

/// Makes the calls of a program; what each of them left.
pub fn call(program: &Path, records: &[Record]) -> Result<Vec<Record>, String> {
    let (given, answers) = (program.with_extension("in"), program.with_extension("out"));
    let bytes: Vec<u8> = records.iter().flat_map(Record::bytes).collect();
    tools::write(&given, &bytes)?;
    let open = |file: std::io::Result<File>| file.map_err(|error| error.to_string());
    let (input, output) = (open(File::open(&given))?, open(File::create(&answers))?);
    let mut qemu = Command::new("qemu-riscv32");
    let status = qemu.arg(program).stdin(input).stdout(output).status();
    let status = status.map_err(|error| format!("qemu-riscv32: {error}"))?;
    let left: Option<Vec<Record>> = words(&tools::read(&answers)?)
        .chunks(16 + WINDOW)
        .map(Record::of)
        .collect();
    match left {
        Some(left) if status.success() && left.len() == records.len() => Ok(left),
        _ => Err(format!("{}: qemu-riscv32: {status}", program.display())),
    }
}

#[cfg(test)]
mod tests {
    use super::*;

    #[test]
    fn a_record_is_32_words() {
        let mut record = Record {
            place: 7,
            registers: [0; 16],
            window: [9; WINDOW],
        };
        record.registers[15] = 0x0102_0304;
        let bytes: Vec<u8> = record.bytes().collect();
        assert_eq!(bytes.len(), 4 * 32);
        assert_eq!(Record::of(&words(&bytes)), Some(record));
        assert_eq!(Record::of(&[1, 2]), None);
    }
}
