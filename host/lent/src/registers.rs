//! The register file: its places and their names, a capability's three words, and the roots.

// Places in the register file, counted in capabilities; c0 to c15 are 0 to 15.
pub const PCC: usize = 16;
pub const MTCC: usize = 17;
pub const MTDC: usize = 18;
pub const MSCRATCHC: usize = 19;
pub const MEPCC: usize = 20;
pub const CAPABILITIES: usize = 21;

// Places in the register file, counted in words.
pub const MSTATUS: usize = 63;
pub const MCAUSE: usize = 64;
pub const MTVAL: usize = 65;
pub const MSHWM: usize = 66;
pub const MSHWMB: usize = 67;
/// Numbers of 64 bits in two words, the low one first.
pub const TIME: usize = 68;
pub const COMPARE: usize = 70;
pub const WORDS: usize = 72;

/// The bit of mstatus that enables interrupts.
pub const MIE: u32 = 1 << 3;
/// mcause of the machine timer interrupt.
pub const TIMER_INTERRUPT: u32 = 0x8000_0007;

/// The names of the capabilities from PCC on.
pub const SPECIAL: [&str; 5] = ["PCC", "MTCC", "MTDC", "MScratchC", "MEPCC"];
/// The names of the words from mstatus on.
pub const CONTROL: [&str; WORDS - MSTATUS] = [
    "mstatus",
    "mcause",
    "mtval",
    "mshwm",
    "mshwmb",
    "time_low",
    "time_high",
    "compare_low",
    "compare_high",
];

// The metadata of the roots; each has type 0 and the whole address space for bounds.
pub const EXECUTABLE_ROOT: u32 = 0x5E3E_0000;
pub const MEMORY_ROOT: u32 = 0x7E3E_0000;
pub const SEALING_ROOT: u32 = 0x4E3E_0000;

/// A capability as the register file holds it.
#[derive(Clone, Copy, PartialEq, Eq, Debug)]
pub struct Capability {
    pub address: u32,
    pub metadata: u32,
    pub tag: u32,
}

impl Capability {
    /// A tagged capability.
    pub fn tagged(address: u32, metadata: u32) -> Capability {
        Capability {
            address,
            metadata,
            tag: 1,
        }
    }

    /// An integer as a register holds it: no metadata and no tag.
    pub fn integer(address: u32) -> Capability {
        Capability {
            address,
            metadata: 0,
            tag: 0,
        }
    }
}

/// The name of a capability's place in the register file.
pub fn place_name(place: usize) -> String {
    let special = place.checked_sub(PCC).and_then(|index| SPECIAL.get(index));
    special.map_or_else(|| format!("c{place}"), |name| name.to_string())
}

/// The name of a word of the register file.
pub fn word_name(index: usize) -> String {
    const PARTS: [&str; 3] = ["address", "metadata", "tag"];
    match index {
        0..MSTATUS => format!("{} {}", place_name(index / 3), PARTS[index % 3]),
        MSTATUS..WORDS => CONTROL[index - MSTATUS].to_string(),
        _ => format!("word {index}"),
    }
}

#[cfg(test)]
mod tests {
    use super::*;

    #[test]
    fn every_word_has_the_name_of_its_place() {
        let named = [
            (0, "c0 address"),
            (47, "c15 tag"),
            (3 * PCC, "PCC address"),
            (3 * MSCRATCHC + 1, "MScratchC metadata"),
            (62, "MEPCC tag"),
            (MSTATUS, "mstatus"),
            (MCAUSE, "mcause"),
            (MTVAL, "mtval"),
            (MSHWM, "mshwm"),
            (MSHWMB, "mshwmb"),
            (TIME, "time_low"),
            (COMPARE + 1, "compare_high"),
            (WORDS, "word 72"),
        ];
        for (index, name) in named {
            assert_eq!(word_name(index), name);
        }
    }
}
