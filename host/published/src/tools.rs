//! The tools that Debian brings: the assembler, the linker and their kin for RISC-V, and qemu's
//! user emulation. Each failure is told with what the tool wrote.

use std::collections::BTreeMap;
use std::fs;
use std::path::{Path, PathBuf};
use std::process::Command;

/// Symbols and their values.
pub type Symbols = BTreeMap<String, u32>;

/// The directory of this package.
const PACKAGE: &str = env!("CARGO_MANIFEST_DIR");

/// The capability programs and their macros.
pub fn programs() -> PathBuf {
    Path::new(PACKAGE).join("../../tests/programs")
}

/// A fresh directory for one part's files.
pub fn workplace(part: &str) -> Result<PathBuf, String> {
    let place = Path::new(PACKAGE).join("../target/published").join(part);
    let _ = fs::remove_dir_all(&place);
    fs::create_dir_all(&place).map_err(|error| format!("{}: {error}", place.display()))?;
    Ok(place)
}

/// A RISC-V tool.
pub fn tool(name: &str) -> Command {
    Command::new(format!("riscv64-unknown-elf-{name}"))
}

/// Runs a command: what it printed, or how it failed.
pub fn run(command: &mut Command) -> Result<String, String> {
    let name = command.get_program().to_string_lossy().into_owned();
    let output = command
        .output()
        .map_err(|error| format!("{name}: {error}"))?;
    if output.status.success() {
        Ok(String::from_utf8_lossy(&output.stdout).into_owned())
    } else {
        Err(format!(
            "{name}: {}",
            String::from_utf8_lossy(&output.stderr)
        ))
    }
}

pub fn write(path: &Path, bytes: &[u8]) -> Result<(), String> {
    fs::write(path, bytes).map_err(|error| format!("{}: {error}", path.display()))
}

pub fn read(path: &Path) -> Result<Vec<u8>, String> {
    fs::read(path).map_err(|error| format!("{}: {error}", path.display()))
}

/// The code that an assembler makes: without short words, or with them wherever it can.
pub const LONG: &str = "rv32em_zicsr";
pub const SHORT: &str = "rv32emc_zicsr";

/// Assembles a source without short words but those it writes itself.
pub fn assemble(source: &Path, object: &Path) -> Result<(), String> {
    assemble_for(LONG, source, object)
}

/// Assembles a source for an architecture, with the programs' macros at hand.
pub fn assemble_for(architecture: &str, source: &Path, object: &Path) -> Result<(), String> {
    let mut gcc = tool("gcc");
    gcc.arg(format!("-march={architecture}"));
    gcc.args(["-mabi=ilp32e", "-c", "-I"]);
    gcc.arg(programs()).arg("-o").arg(object).arg(source);
    run(&mut gcc).map(|_| ())
}

/// The symbols that a file defines, local ones too; of an archive, the global ones.
pub fn symbols(file: &Path) -> Result<Symbols, String> {
    let archive = file.extension().is_some_and(|end| end == "a");
    let scope = if archive { "-g" } else { "-p" };
    let text = run(tool("nm").args([scope, "--defined-only"]).arg(file))?;
    Ok(text.lines().filter_map(symbol).collect())
}

/// One line of nm: the value, a letter, the name.
fn symbol(line: &str) -> Option<(String, u32)> {
    let mut fields = line.split_whitespace();
    let value = u32::from_str_radix(fields.next()?, 16).ok()?;
    let name = fields.nth(1)?;
    Some((name.to_string(), value))
}

/// The bytes of one section of a linked file.
pub fn section(file: &Path, name: &str) -> Result<Vec<u8>, String> {
    let bytes = file.with_extension("bin");
    let mut objcopy = tool("objcopy");
    objcopy.args(["-O", "binary", "-j", name]);
    run(objcopy.arg(file).arg(&bytes))?;
    read(&bytes)
}

/// The archive of compiler routines for an architecture.
pub fn libgcc(architecture: &str) -> Result<PathBuf, String> {
    let mut gcc = tool("gcc");
    gcc.arg(format!("-march={architecture}"));
    let text = run(gcc.args(["-mabi=ilp32e", "-print-libgcc-file-name"]))?;
    let path = PathBuf::from(text.trim_end());
    // Where gcc has none, it names another's.
    let own = path
        .components()
        .any(|part| part.as_os_str() == architecture);
    own.then_some(path)
        .ok_or(format!("no library for {architecture}: {text}"))
}

#[cfg(test)]
mod tests {
    use super::*;

    #[test]
    fn lines_of_nm() {
        let found = symbol("20000004 T returned");
        assert_eq!(found, Some(("returned".to_string(), 0x2000_0004)));
        assert_eq!(symbol("_muldi3.o:"), None);
        assert_eq!(symbol(""), None);
        assert_eq!(symbol("         U abort"), None);
    }
}
