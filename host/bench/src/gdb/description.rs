//! What a client is told of the machine in XML: its registers and its memory.

use super::registers::{registers, Part, Register, FIELDS, PC};
use lent::{State, PCC};
use std::fmt::Write;

/// Before the registers. Without an operating system gdb leaves single steps to the machine.
const HEAD: &str = "\
<?xml version=\"1.0\"?>
<!DOCTYPE target SYSTEM \"gdb-target.dtd\">
<target version=\"1.0\">
<architecture>riscv:rv32</architecture>
<osabi>none</osabi>
";

/// The target's description: gdb's own registers for RV32E, then the further ones.
pub fn target() -> String {
    let (own, further): (Vec<Register>, Vec<Register>) = registers()
        .into_iter()
        .partition(|register| register.number <= PC);
    let own = registers_shown(&own);
    let (capability, further) = (capability_type(), registers_shown(&further));
    format!(
        "{HEAD}<feature name=\"org.gnu.gdb.riscv.cpu\">\n{own}</feature>\n\
         <feature name=\"org.oddersnow.capabilities\">\n{capability}{further}</feature>\n</target>\n"
    )
}

fn capability_type() -> String {
    let mut text = String::from("<struct id=\"capability\">\n");
    for (name, bytes) in FIELDS {
        let bits = 8 * bytes;
        let _ = writeln!(text, "<field name=\"{name}\" type=\"uint{bits}\"/>");
    }
    text + "</struct>\n"
}

fn registers_shown(registers: &[Register]) -> String {
    let mut text = String::new();
    for Register { number, name, part } in registers {
        let bits = 8 * part.bytes();
        let kind = match part {
            Part::Address(PCC) => "code_ptr".into(),
            Part::Address(_) => "int".into(),
            Part::Capability(_) => "capability".into(),
            _ => format!("uint{bits}"),
        };
        let _ = writeln!(
            text,
            "<reg name=\"{name}\" bitsize=\"{bits}\" regnum=\"{number}\" type=\"{kind}\"/>"
        );
    }
    text
}

/// The map of a state's memory, all of it RAM.
pub fn memory(state: &State) -> String {
    let (start, length) = (state.start, state.mem.len());
    format!(
        "<?xml version=\"1.0\"?>\n<memory-map>\n\
         <memory type=\"ram\" start=\"0x{start:x}\" length=\"0x{length:x}\"/>\n</memory-map>\n"
    )
}

#[cfg(test)]
mod tests {
    use super::*;

    #[test]
    fn every_register_has_a_number_and_a_name_of_its_own() {
        let all = registers();
        for (place, register) in all.iter().enumerate() {
            let others = &all[place + 1..];
            assert!(others.iter().all(|other| other.name != register.name));
            assert!(others.iter().all(|other| other.number > register.number));
        }
        let numbered = |name: &str| all.iter().find(|register| register.name == name);
        let known = [
            ("x15", 15),
            ("pc", 32),
            ("c0", 33),
            ("pcc", 49),
            ("time", 59),
        ];
        for (name, number) in known {
            let found = numbered(name).map(|register| register.number);
            assert_eq!(found, Some(number), "{name}");
        }
        assert_eq!(all.len(), 16 + 1 + 21 + 7);
    }

    #[test]
    fn the_description_has_a_line_for_every_register() {
        let text = target();
        assert_eq!(text.matches("<reg ").count(), registers().len());
        assert!(text.contains("name=\"pc\" bitsize=\"32\" regnum=\"32\" type=\"code_ptr\""));
        assert!(text.contains("name=\"c2\" bitsize=\"192\" regnum=\"35\" type=\"capability\""));
        let map = memory(&State::new(0x2000_0000, vec![0; 128]));
        assert!(map.contains("start=\"0x20000000\" length=\"0x80\""));
    }
}
