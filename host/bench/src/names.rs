//! Names of places in memory, for reports: the symbols of an ELF image and the regions of a map
//! sheet.

use crate::visible::quoted;

/// A named stretch of memory.
#[derive(Clone, PartialEq, Eq, Debug)]
pub struct Name {
    pub name: String,
    pub start: u32,
    pub length: u64,
}

impl Name {
    /// A stretch by a name of any bytes. It is shown on terminals, which obey some bytes, so those are
    /// written out.
    pub fn new(name: &[u8], start: u32, length: u64) -> Name {
        Name {
            name: name.escape_ascii().to_string(),
            start,
            length,
        }
    }
}

#[derive(Clone, Default, PartialEq, Eq, Debug)]
pub struct Names(pub Vec<Name>);

impl Names {
    /// The stretches that hold an address, each with how far into it that is.
    pub fn at(&self, address: u32) -> impl Iterator<Item = (&str, u32)> {
        self.0.iter().filter_map(move |stretch| {
            let offset = address.checked_sub(stretch.start)?;
            (u64::from(offset) < stretch.length).then_some((stretch.name.as_str(), offset))
        })
    }

    /// The same as the end of a line.
    pub fn place(&self, address: u32) -> String {
        self.at(address)
            .map(|(name, offset)| format!(", byte {offset} of {}", quoted(name)))
            .collect()
    }
}

#[cfg(test)]
mod tests {
    use super::*;

    #[test]
    fn the_stretches_that_hold_an_address_are_named() {
        let names = Names(vec![
            Name::new(b"code", 0x2000_0000, 0x100),
            Name::new(b"main", 0x2000_0010, 4),
            Name::new(b"last", 0xFFFF_FFFC, 4),
        ]);
        assert_eq!(
            names.place(0x2000_0013),
            ", byte 19 of code, byte 3 of main"
        );
        assert_eq!(names.place(0x2000_0014), ", byte 20 of code");
        assert_eq!(names.place(0xFFFF_FFFF), ", byte 3 of last");
        assert_eq!(names.place(0x2000_0100), "");
        let places: Vec<(&str, u32)> = names.at(0x2000_0010).collect();
        assert_eq!(places, [("code", 16), ("main", 0)]);
    }

    #[test]
    fn a_name_gives_a_terminal_no_orders() {
        let name = Name::new(b"\x1b[2J\n\xff", 0, 1);
        assert_eq!(name.name, "\\x1b[2J\\n\\xff");
    }
}
