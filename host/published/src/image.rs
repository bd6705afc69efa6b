//! A linked image: the bench's memory and the same code as a program for qemu.

use crate::tools::{self, Symbols};
use lent::instruction_bytes;
use std::path::{Path, PathBuf};

/// The address at which every image begins; image.ld has it too.
pub const START: u32 = 0x2000_0000;

const EBREAK: u32 = 0x0010_0073;

/// An image.
pub struct Image {
    /// The program for qemu.
    pub program: PathBuf,
    /// The bench's memory as it is lent.
    pub memory: Vec<u8>,
    /// The instructions of the routines, short and long, without the stub and the handler.
    pub code: Vec<u32>,
    pub symbols: Symbols,
}

/// The objects that every image has: the stub, the driver and the repairing handler.
pub struct Linker {
    place: PathBuf,
}

const SOURCES: [(&str, &str); 3] = [
    ("driver.S", include_str!("driver.S")),
    ("repair.S", include_str!("repair.S")),
    ("image.ld", include_str!("image.ld")),
];

impl Linker {
    /// Assembles what every image has.
    pub fn new(place: &Path) -> Result<Linker, String> {
        for (name, text) in SOURCES {
            let source = place.join(name);
            tools::write(&source, text.as_bytes())?;
            if name.ends_with(".S") {
                tools::assemble(&source, &source.with_extension("o"))?;
            }
        }
        let place = place.to_path_buf();
        Ok(Linker { place })
    }

    /// Links an object or an archive from which one symbol is wanted.
    pub fn link(&self, wanted: &str, code: &Path) -> Result<Image, String> {
        let program = self.place.join(format!("{wanted}.elf"));
        let mut ld = tools::tool("ld");
        ld.args(["-m", "elf32lriscv", "--no-warn-rwx-segments", "-T"]);
        ld.arg(self.place.join("image.ld"));
        ld.arg(self.place.join("driver.o"));
        ld.arg(self.place.join("repair.o"));
        ld.arg(format!("--require-defined={wanted}"));
        tools::run(ld.arg(code).arg("-o").arg(&program))?;
        Image::of(program)
    }
}

impl Image {
    fn of(program: PathBuf) -> Result<Image, String> {
        let symbols = tools::symbols(&program)?;
        let mut image = Image {
            memory: tools::section(&program, ".bench")?,
            program,
            code: Vec::new(),
            symbols,
        };
        let size = image.offset("arena_end")?;
        if image.memory.len() > size {
            return Err(format!("{} bytes in {size}", image.memory.len()));
        }
        image.memory.resize(size, 0);
        let (first, last) = (image.offset("routine_start")?, image.offset("routine_end")?);
        image.code = instructions(&image.memory[first..last]);
        // The linker may leave a zero half behind the last routine.
        while image.code.last() == Some(&0) {
            image.code.pop();
        }
        let returned = image.offset("returned")?;
        image.memory[returned..returned + 4].copy_from_slice(&EBREAK.to_le_bytes());
        Ok(image)
    }

    /// The address of a symbol.
    pub fn address(&self, name: &str) -> Result<u32, String> {
        let found = self.symbols.get(name).copied();
        found.ok_or_else(|| format!("{}: no {name}", self.program.display()))
    }

    /// The place of a symbol in the memory.
    fn offset(&self, name: &str) -> Result<usize, String> {
        self.address(name).map(|address| (address - START) as usize)
    }

    /// The instruction at an address of the memory.
    pub fn instruction(&self, address: u32) -> Option<u32> {
        let offset = address.checked_sub(START)? as usize;
        let bytes = self.memory.get(offset..)?;
        instructions(bytes.get(..4)?).first().copied()
    }
}

/// Bytes as instructions of two and four bytes.
fn instructions(bytes: &[u8]) -> Vec<u32> {
    let mut rest = bytes;
    let mut found = Vec::new();
    while let [low, ..] = rest {
        let length = instruction_bytes((*low).into()) as usize;
        let (first, others) = rest.split_at(length.min(rest.len()));
        found.extend(words(first));
        rest = others;
    }
    found
}

/// Bytes as little-endian words.
pub fn words(bytes: &[u8]) -> Vec<u32> {
    let word = |chunk: &[u8]| {
        chunk
            .iter()
            .rev()
            .fold(0, |sum, &byte| sum << 8 | u32::from(byte))
    };
    bytes.chunks(4).map(word).collect()
}

#[cfg(test)]
mod tests {
    use super::*;

    #[test]
    fn little_endian_words() {
        assert_eq!(words(&[1, 2, 3, 4, 5]), [0x0403_0201, 5]);
    }

    #[test]
    fn instructions_of_both_lengths() {
        // c.nop; ret; c.ebreak.
        let bytes = [0x01, 0x00, 0x67, 0x80, 0x00, 0x00, 0x02, 0x90];
        assert_eq!(instructions(&bytes), [0x0001, 0x0000_8067, 0x9002]);
    }
}
