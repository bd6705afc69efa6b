//! The binutils disassembler for RV32E with M and Zicsr: which words it knows, and how it writes them.

use crate::tools;
use std::path::Path;

/// What the disassembler makes of a word: its text, with the mnemonic first.
pub type Reading = (u32, String);

/// A section's worth of words, each followed by so many zero bytes.
pub struct Listing {
    pub words: Vec<u32>,
    pub padding: usize,
}

impl Listing {
    /// Disassembles the words; one reading each, in order.
    pub fn read(&self, place: &Path) -> Result<Vec<Reading>, String> {
        let object = self.object(place)?;
        let options = ["-d", "-z", "-M", "no-aliases,numeric"];
        let text = tools::run(tools::tool("objdump").args(options).arg(&object))?;
        let stride = self.stride();
        let mut texts = vec![None; self.words.len()];
        for (address, text) in text.lines().filter_map(line) {
            if address.is_multiple_of(stride) {
                if let Some(known) = texts.get_mut(address / stride) {
                    *known = Some(text);
                }
            }
        }
        let missing = "a word without a line in the listing";
        let pair = |(&word, text): (&u32, Option<String>)| Some((word, text?));
        let readings: Option<Vec<_>> = self.words.iter().zip(texts).map(pair).collect();
        readings.ok_or_else(|| missing.to_string())
    }

    /// The bytes from one word to the next.
    pub fn stride(&self) -> usize {
        4 + self.padding
    }

    /// An object with the words as code. The symbols that mark data are stripped, so that the
    /// disassembler tries every word.
    fn object(&self, place: &Path) -> Result<std::path::PathBuf, String> {
        let (bytes, source) = (place.join("words.bin"), place.join("words.S"));
        let padding = vec![0; self.padding];
        let word = |word: &u32| [word.to_le_bytes().to_vec(), padding.clone()].concat();
        let all: Vec<u8> = self.words.iter().flat_map(word).collect();
        tools::write(&bytes, &all)?;
        let name = bytes.display();
        let text = format!(".attribute arch, \"rv32em_zicsr\"\n.text\n.incbin \"{name}\"\n");
        tools::write(&source, text.as_bytes())?;
        let object = source.with_extension("o");
        tools::assemble(&source, &object)?;
        tools::run(tools::tool("strip").arg("--strip-all").arg(&object))?;
        Ok(object)
    }
}

/// The bytes from one half to the next: each is followed by a no-op, so that it is read by itself.
pub const HALF_STRIDE: usize = 4;
const C_NOP: u16 = 0x0001;

/// How the disassembler reads each half that is a short word as code of a machine, rv32 or rv64, with
/// every extension that it knows; the others as no-ops.
pub fn read_halves(place: &Path, machine: &str) -> Result<Vec<String>, String> {
    let bytes = place.join("halves.bin");
    // One that begins a long word would take what follows with it.
    let alone = |half: u16| if half & 3 == 3 { C_NOP } else { half };
    let pair = |half: u16| [alone(half).to_le_bytes(), C_NOP.to_le_bytes()].concat();
    let all: Vec<u8> = (0..=u16::MAX).flat_map(pair).collect();
    tools::write(&bytes, &all)?;
    let mut objdump = tools::tool("objdump");
    objdump.args(["-D", "-z", "-b", "binary", "-M", "no-aliases,numeric"]);
    objdump.args(["-m", &format!("riscv:{machine}")]);
    let text = tools::run(objdump.arg(&bytes))?;
    let mut texts = vec![String::new(); 1 << 16];
    for (address, text) in text.lines().filter_map(line) {
        if address.is_multiple_of(HALF_STRIDE) {
            if let Some(known) = texts.get_mut(address / HALF_STRIDE) {
                *known = text;
            }
        }
    }
    Ok(texts)
}

/// A line of the listing: the address and the text behind the word.
fn line(line: &str) -> Option<(usize, String)> {
    let (address, rest) = line.trim_start().split_once(":\t")?;
    let address = usize::from_str_radix(address, 16).ok()?;
    let (_, text) = rest.split_once('\t')?;
    Some((address, text.replace('\t', " ")))
}

/// Whether the disassembler knows the word. What it does not know it prints as data.
pub fn known(text: &str) -> bool {
    !text.starts_with('.')
}

/// Whether the text is of RV32E: it names no register above x15, and shifts by less than 32. The
/// disassembler itself checks neither.
pub fn of_rv32e(text: &str) -> bool {
    let operands = text.split_once(' ').map_or("", |(_, operands)| operands);
    let parts = || operands.split(|c: char| !c.is_ascii_alphanumeric());
    let high = |part: &str| {
        let number = part.strip_prefix('x').and_then(|n| n.parse::<u32>().ok());
        number.is_some_and(|number| number > 15)
    };
    let shift = ["slli", "srli", "srai"].contains(&&text[..text.len().min(4)]);
    let amount = parts().next_back().and_then(|part| part.strip_prefix("0x"));
    let amount = amount.and_then(|digits| u32::from_str_radix(digits, 16).ok());
    let long = shift && amount.is_none_or(|amount| amount > 31);
    !long && !parts().any(high)
}

#[cfg(test)]
mod tests {
    use super::*;

    #[test]
    fn lines_of_objdump() {
        let found = line("   4:\t007302b3          \tadd\tx5,x6,x7");
        assert_eq!(found, Some((4, "add x5,x6,x7".to_string())));
        assert_eq!(line("00000000 <.text>:"), None);
        assert_eq!(line(""), None);
    }

    #[test]
    fn what_is_of_rv32e() {
        assert!(of_rv32e("add x5,x6,x15"));
        assert!(!of_rv32e("add x5,x6,x16"));
        assert!(!of_rv32e("lw x5,8(x31)"));
        assert!(of_rv32e("slli x5,x6,0x1f"));
        assert!(!of_rv32e("srai x5,x6,0x20"));
        assert!(of_rv32e("csrrwi x0,mstatus,31"));
        assert!(of_rv32e("mret"));
        assert!(known("unimp") && !known(".4byte 0x5b"));
    }
}
