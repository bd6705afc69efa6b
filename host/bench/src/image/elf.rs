//! ELF for 32-bit RISC-V: its loadable segments by their physical addresses, its entry, its
//! symbols.

use super::{lines, Image, Segment};
use crate::names::Name;
use object::elf::EF_RISCV_FLOAT_ABI;
use object::elf::{FileHeader32, ProgramHeader32};
use object::elf::{EM_RISCV, ET_EXEC, PF_X, PT_LOAD, SHN_LORESERVE, SHT_SYMTAB};
use object::elf::{STT_FUNC, STT_NOTYPE, STT_OBJECT};
use object::read::elf::{FileHeader, ProgramHeader, SectionHeader, Sym, SymbolTable};
use object::read::ReadRef;
use object::LittleEndian as Order;

// The marks of the file's class and byte order.
const CLASS_32: u8 = 1;
const LITTLE_ENDIAN: u8 = 1;
/// The bytes up to them.
const MARK: u64 = 6;

/// The flag of a file for cores with 16 registers (the RISC-V ELF specification).
const EF_RISCV_RVE: u32 = 8;

fn broken(error: object::Error) -> String {
    format!("it is no whole ELF file: {error}")
}

/// A segment to load: its number among the program headers, its address and where it lies in the file, how many bytes it has there
/// and how many zeros after them, and whether it may be executed.
pub struct Load {
    pub index: usize,
    pub address: u32,
    pub offset: u64,
    pub in_file: u64,
    pub zeros: u64,
    pub code: bool,
}

impl Load {
    pub fn origin(&self) -> String {
        format!("segment {}", self.index)
    }
}

/// What a file's headers say: where the program starts, for which core it is, and what is loaded.
pub struct Loaded<'a> {
    header: &'a FileHeader32<Order>,
    pub segments: Vec<Load>,
}

/// The headers of an ELF file, or what is wrong with it.
pub fn loaded<'a, R: ReadRef<'a>>(bytes: R) -> Result<Loaded<'a>, String> {
    let mark = bytes.read_bytes_at(0, MARK);
    if !matches!(mark, Ok([_, _, _, _, CLASS_32, LITTLE_ENDIAN])) {
        return Err("it is no ELF file of 32 bits with its low bytes first".into());
    }
    let header = FileHeader32::<Order>::parse(bytes).map_err(broken)?;
    let order = header.endian().map_err(broken)?;
    if header.e_machine(order) != EM_RISCV {
        return Err("it is an ELF file for another processor, not RISC-V".into());
    }
    if header.e_type(order) != ET_EXEC {
        return Err("it is an ELF file that is not linked to run (its type is not EXEC)".into());
    }
    let headers = header.program_headers(order, bytes).map_err(broken)?;
    let headers = headers.iter().enumerate();
    let headers = headers.filter(|(_, header)| header.p_type(order) == PT_LOAD);
    let length = bytes.len().unwrap_or(0);
    let segments = headers.filter_map(|(index, header)| load(header, index, length).transpose());
    let segments = segments.collect::<Result<Vec<Load>, String>>()?;
    match segments.is_empty() {
        true => Err("it has no segment to load".into()),
        false => Ok(Loaded { header, segments }),
    }
}

/// The image of an ELF file, or what is wrong with it.
pub fn read(bytes: &[u8]) -> Result<Image, String> {
    let Loaded { header, segments } = loaded(bytes)?;
    let segment = |load: Load| Segment {
        address: load.address,
        bytes: bytes[load.offset as usize..][..load.in_file as usize].to_vec(),
        zeros: load.zeros,
        origin: load.origin(),
    };
    Ok(Image {
        entry: Some(header.e_entry(Order)),
        notes: notes(header),
        segments: segments.into_iter().map(segment).collect(),
        names: names(header, bytes).unwrap_or_default(),
        labels: labels(header, bytes).unwrap_or_default(),
        lines: lines::read(|name| section(header, bytes, name)),
        ..Image::default()
    })
}

/// What a header says of another core than this one, which has 16 registers and no floating point, and what it has lost.
fn notes(header: &FileHeader32<Order>) -> Vec<String> {
    let (flags, mut notes) = (header.e_flags(Order), Vec::new());
    if header.e_shoff(Order) == 0 {
        notes.push("it has no section table, so that its symbols and source lines are gone".into());
    }
    if flags & EF_RISCV_RVE == 0 {
        notes.push("its header says that it is for a core with 32 registers (not RVE), and this one has 16".into());
    }
    if flags & EF_RISCV_FLOAT_ABI != 0 {
        notes.push(
            "its header says that it is for a core with floating point, and this one has none"
                .into(),
        );
    }
    notes
}

/// A segment with the zeros that it has in memory alone; none if it is empty. The file has so many bytes.
fn load(
    header: &ProgramHeader32<Order>,
    index: usize,
    length: u64,
) -> Result<Option<Load>, String> {
    let order = Order;
    let (address, size) = (header.p_paddr(order), u64::from(header.p_memsz(order)));
    let (offset, in_file) = (header.p_offset(order), header.p_filesz(order));
    let told = |reason: &str| format!("segment {index} at {address:08x} {reason}");
    // A segment without bytes in the file may have any offset there.
    let offset = if in_file > 0 { u64::from(offset) } else { 0 };
    if offset + u64::from(in_file) > length {
        return Err(told("is cut short: the file ends inside it"));
    }
    let Some(zeros) = size.checked_sub(in_file.into()) else {
        return Err(told("is larger in the file than in memory"));
    };
    if u64::from(address) + size > 1 << 32 {
        return Err(told("ends past 2^32"));
    }
    Ok((size > 0).then_some(Load {
        index,
        address,
        offset,
        in_file: in_file.into(),
        zeros,
        code: header.p_flags(order) & PF_X != 0,
    }))
}

/// The bytes of a section by its name.
fn section<'a>(header: &FileHeader32<Order>, bytes: &'a [u8], name: &str) -> Option<&'a [u8]> {
    let order = header.endian().ok()?;
    let sections = header.sections(order, bytes).ok()?;
    let (_, section) = sections.section_by_name(order, name.as_bytes())?;
    section.data(order, bytes).ok()
}

type Symbols<'a> = SymbolTable<'a, FileHeader32<Order>>;

/// The symbol table.
fn symbols<'a>(header: &FileHeader32<Order>, bytes: &'a [u8]) -> Option<Symbols<'a>> {
    let order = header.endian().ok()?;
    let sections = header.sections(order, bytes).ok()?;
    sections.symbols(order, bytes, SHT_SYMTAB).ok()
}

/// Every symbol that stands in a section, with its address: functions, objects and plain labels.
fn labels(header: &FileHeader32<Order>, bytes: &[u8]) -> Option<Vec<(String, u32)>> {
    let order = header.endian().ok()?;
    let symbols = symbols(header, bytes)?;
    let placed = symbols.iter().filter(|symbol| {
        let labels = matches!(symbol.st_type(), STT_FUNC | STT_OBJECT | STT_NOTYPE);
        labels && (1..SHN_LORESERVE).contains(&symbol.st_shndx(order))
    });
    let named = placed.map(|symbol| {
        let name = symbol.name(order, symbols.strings()).ok()?;
        Some((name.escape_ascii().to_string(), symbol.st_value(order)))
    });
    named.collect()
}

/// The functions and objects that the symbol table names with a size.
fn names(header: &FileHeader32<Order>, bytes: &[u8]) -> Option<Vec<Name>> {
    let order = header.endian().ok()?;
    let symbols = symbols(header, bytes)?;
    let mut names = Vec::new();
    for symbol in symbols.iter() {
        let named = matches!(symbol.st_type(), STT_FUNC | STT_OBJECT);
        if named && symbol.st_size(order) > 0 {
            let name = symbol.name(order, symbols.strings()).ok()?;
            let (start, length) = (symbol.st_value(order), symbol.st_size(order));
            names.push(Name::new(name, start, length.into()));
        }
    }
    Some(names)
}
