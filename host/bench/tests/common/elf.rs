//! ELF files for the tests, word by word as the format has them.

/// One program header: address, bytes in the file from an offset on, bytes in memory.
pub struct Header {
    pub address: u32,
    pub offset: u32,
    pub in_file: u32,
    pub in_memory: u32,
}

/// An ELF file of a class (1 is 32 bits), a type, a machine, headers and then data.
pub fn elf(class: u8, kind: u16, machine: u16, headers: &[Header], data: &[u8]) -> Vec<u8> {
    let mut bytes = vec![
        0x7F, b'E', b'L', b'F', class, 1, 1, 0, 0, 0, 0, 0, 0, 0, 0, 0,
    ];
    let entry = headers.first().map_or(0, |header| header.address);
    bytes.extend([kind, machine].iter().flat_map(|half| half.to_le_bytes()));
    let words = [1, entry, 52, 0, RVE];
    bytes.extend(words.iter().flat_map(|word| word.to_le_bytes()));
    let halves = [52, 32, headers.len() as u16, 40, 0, 0];
    bytes.extend(halves.iter().flat_map(|half| half.to_le_bytes()));
    for header in headers {
        let Header {
            address,
            offset,
            in_file,
            in_memory,
        } = *header;
        let words = [1, offset, address, address, in_file, in_memory, 7, 4];
        bytes.extend(words.iter().flat_map(|word| word.to_le_bytes()));
    }
    bytes.extend(data);
    bytes
}

/// The flag of a file for a core with 16 registers.
pub const RVE: u32 = 8;
pub const EXEC: u16 = 2;
pub const RISCV: u16 = 243;

/// Where a program's code lies in its file: after the file's header and one of a segment.
const CODE: u32 = 84;

/// A program of one segment, with code at an address and symbols for it.
pub fn program(address: u32, code: &[u32], symbols: &[Symbol]) -> Vec<u8> {
    let data = words(code);
    let length = data.len() as u32;
    let header = Header {
        address,
        offset: CODE,
        in_file: length,
        in_memory: length,
    };
    with_symbols(elf(1, EXEC, RISCV, &[header], &data), symbols)
}

/// A symbol: a function if it has a size, a plain label otherwise. In section 0 it is only asked for.
pub struct Symbol<'a> {
    pub name: &'a str,
    pub address: u32,
    pub size: u32,
    pub section: u16,
}

/// A file with a symbol table, the names for it, and the headers of these two sections at its end.
pub fn with_symbols(mut file: Vec<u8>, symbols: &[Symbol]) -> Vec<u8> {
    const FUNCTION: u8 = 2;
    let (mut table, mut names) = (vec![0; 16], vec![0]);
    for symbol in symbols {
        table.extend(words(&[names.len() as u32, symbol.address, symbol.size]));
        let kind = if symbol.size > 0 { FUNCTION } else { 0 };
        table.extend([kind, 0]);
        table.extend(symbol.section.to_le_bytes());
        names.extend(symbol.name.bytes());
        names.push(0);
    }
    let (at, size) = (file.len() as u32, table.len() as u32);
    let names_at = at + size;
    // Of each section its name, kind, flags, address, place, size, the section it needs, and three more words.
    let sections = [
        [0; 10],
        [0, 2, 0, 0, at, size, 2, 1, 4, 16],
        [0, 3, 0, 0, names_at, names.len() as u32, 0, 0, 1, 0],
    ];
    file.extend([table, names].concat());
    let headers = (file.len() as u32).to_le_bytes();
    file.extend(sections.iter().flat_map(|section| words(section)));
    file[32..36].copy_from_slice(&headers);
    file[48..52].copy_from_slice(&[sections.len() as u8, 0, 2, 0]);
    file
}

fn words(words: &[u32]) -> Vec<u8> {
    words.iter().flat_map(|word| word.to_le_bytes()).collect()
}
