//! Halves and long words as Debian's assembler makes them from the standard's names (C.LD and its like
//! as RV64; CIncAddrImm by the report's fields), and the code points that the standard reserves.

use super::decode;
use crate::decode as long;

/// A short form, its half, and the long word that it stands for.
#[rustfmt::skip]
const TABLE: &[(&str, u16, u32)] = &[
    ("c.addi4spn x8, x2, 4", 0x0040, 0x0041_145B),
    ("c.addi4spn x15, x2, 8", 0x003C, 0x0081_17DB),
    ("c.addi4spn x9, x2, 16", 0x0804, 0x0101_14DB),
    ("c.addi4spn x9, x2, 64", 0x0084, 0x0401_14DB),
    ("c.addi4spn x9, x2, 512", 0x0404, 0x2001_14DB),
    ("c.addi4spn x10, x2, 1020", 0x1FE8, 0x3FC1_155B),
    ("c.lw x8, 0(x15)", 0x4380, 0x0007_A403),
    ("c.lw x9, 4(x10)", 0x4144, 0x0045_2483),
    ("c.lw x9, 8(x10)", 0x4504, 0x0085_2483),
    ("c.lw x9, 64(x10)", 0x4124, 0x0405_2483),
    ("c.lw x15, 124(x8)", 0x5C7C, 0x07C4_2783),
    ("c.sw x8, 4(x15)", 0xC3C0, 0x0087_A223),
    ("c.sw x14, 64(x9)", 0xC0B8, 0x04E4_A023),
    ("c.sw x15, 124(x8)", 0xDC7C, 0x06F4_2E23),
    ("c.ld x9, 8(x10)", 0x6504, 0x0085_3483),
    ("c.ld x9, 64(x10)", 0x6124, 0x0405_3483),
    ("c.ld x9, 128(x10)", 0x6144, 0x0805_3483),
    ("c.ld x15, 248(x8)", 0x7C7C, 0x0F84_3783),
    ("c.sd x9, 8(x10)", 0xE504, 0x0095_3423),
    ("c.sd x9, 64(x10)", 0xE124, 0x0495_3023),
    ("c.sd x9, 128(x10)", 0xE144, 0x0895_3023),
    ("c.sd x15, 248(x8)", 0xFC7C, 0x0EF4_3C23),
    ("c.nop", 0x0001, 0x0000_0013),
    ("c.addi x10, 1", 0x0505, 0x0015_0513),
    ("c.addi x15, -32", 0x1781, 0xFE07_8793),
    ("c.addi x2, 31", 0x017D, 0x01F1_0113),
    ("c.addi x1, -1", 0x10FD, 0xFFF0_8093),
    ("c.jal .+2", 0x2009, 0x0020_00EF),
    ("c.jal .-2048", 0x3001, 0x801F_F0EF),
    ("c.jal .+1024", 0x2101, 0x4000_00EF),
    ("c.jal .+16", 0x2801, 0x0100_00EF),
    ("c.j .+2046", 0xAFFD, 0x7FE0_006F),
    ("c.j .-2", 0xBFFD, 0xFFFF_F06F),
    ("c.j .+32", 0xA005, 0x0200_006F),
    ("c.j .+64", 0xA081, 0x0400_006F),
    ("c.j .+128", 0xA041, 0x0800_006F),
    ("c.j .+256", 0xA201, 0x1000_006F),
    ("c.li x10, -1", 0x557D, 0xFFF0_0513),
    ("c.li x15, 31", 0x47FD, 0x01F0_0793),
    ("c.li x1, -32", 0x5081, 0xFE00_0093),
    ("c.addi16sp x2, 16", 0x6141, 0x0101_115B),
    ("c.addi16sp x2, 32", 0x6105, 0x0201_115B),
    ("c.addi16sp x2, 64", 0x6121, 0x0401_115B),
    ("c.addi16sp x2, 128", 0x6109, 0x0801_115B),
    ("c.addi16sp x2, 256", 0x6111, 0x1001_115B),
    ("c.addi16sp x2, -512", 0x7101, 0xE001_115B),
    ("c.addi16sp x2, -16", 0x717D, 0xFF01_115B),
    ("c.lui x11, 1", 0x6585, 0x0000_15B7),
    ("c.lui x1, 31", 0x60FD, 0x0001_F0B7),
    ("c.lui x15, 0xfffe0", 0x7781, 0xFFFE_07B7),
    ("c.lui x3, 0xfffff", 0x71FD, 0xFFFF_F1B7),
    ("c.srli x8, 1", 0x8005, 0x0014_5413),
    ("c.srli x15, 31", 0x83FD, 0x01F7_D793),
    ("c.srai x9, 16", 0x84C1, 0x4104_D493),
    ("c.srai x15, 31", 0x87FD, 0x41F7_D793),
    ("c.andi x10, -1", 0x997D, 0xFFF5_7513),
    ("c.andi x11, 31", 0x89FD, 0x01F5_F593),
    ("c.andi x8, -32", 0x9801, 0xFE04_7413),
    ("c.sub x8, x15", 0x8C1D, 0x40F4_0433),
    ("c.xor x9, x14", 0x8CB9, 0x00E4_C4B3),
    ("c.or x10, x13", 0x8D55, 0x00D5_6533),
    ("c.and x15, x8", 0x8FE1, 0x0087_F7B3),
    ("c.beqz x8, .+2", 0xC009, 0x0004_0163),
    ("c.beqz x15, .-256", 0xD381, 0xF007_80E3),
    ("c.beqz x9, .+8", 0xC481, 0x0004_8463),
    ("c.beqz x9, .+32", 0xC085, 0x0204_8063),
    ("c.bnez x10, .+254", 0xED7D, 0x0E05_1F63),
    ("c.bnez x11, .-4", 0xFDF5, 0xFE05_9EE3),
    ("c.bnez x11, .+64", 0xE1A1, 0x0405_9063),
    ("c.bnez x11, .+128", 0xE1C1, 0x0805_9063),
    ("c.slli x1, 1", 0x0086, 0x0010_9093),
    ("c.slli x15, 31", 0x07FE, 0x01F7_9793),
    ("c.lwsp x1, 0(x2)", 0x4082, 0x0001_2083),
    ("c.lwsp x15, 252(x2)", 0x57FE, 0x0FC1_2783),
    ("c.lwsp x9, 64(x2)", 0x4486, 0x0401_2483),
    ("c.lwsp x9, 32(x2)", 0x5482, 0x0201_2483),
    ("c.lwsp x9, 4(x2)", 0x4492, 0x0041_2483),
    ("c.ldsp x1, 0(x2)", 0x6082, 0x0001_3083),
    ("c.ldsp x15, 504(x2)", 0x77FE, 0x1F81_3783),
    ("c.ldsp x9, 64(x2)", 0x6486, 0x0401_3483),
    ("c.ldsp x9, 256(x2)", 0x6492, 0x1001_3483),
    ("c.ldsp x9, 32(x2)", 0x7482, 0x0201_3483),
    ("c.jr x1", 0x8082, 0x0000_8067),
    ("c.jr x15", 0x8782, 0x0007_8067),
    ("c.mv x1, x15", 0x80BE, 0x00F0_00B3),
    ("c.mv x15, x2", 0x878A, 0x0020_07B3),
    ("c.ebreak", 0x9002, 0x0010_0073),
    ("c.jalr x5", 0x9282, 0x0002_80E7),
    ("c.jalr x1", 0x9082, 0x0000_80E7),
    ("c.add x1, x15", 0x90BE, 0x00F0_80B3),
    ("c.add x15, x1", 0x9786, 0x0017_87B3),
    ("c.swsp x0, 252(x2)", 0xDF82, 0x0E01_2E23),
    ("c.swsp x15, 64(x2)", 0xC0BE, 0x04F1_2023),
    ("c.swsp x1, 4(x2)", 0xC206, 0x0011_2223),
    ("c.sdsp x0, 504(x2)", 0xFF82, 0x1E01_3C23),
    ("c.sdsp x15, 64(x2)", 0xE0BE, 0x04F1_3023),
    ("c.sdsp x1, 8(x2)", 0xE406, 0x0011_3423),
    ("c.sdsp x1, 256(x2)", 0xE206, 0x1011_3023),
];

#[test]
fn each_form_is_its_long_form() {
    for &(name, half, word) in TABLE {
        assert!(long::decode(word).is_some(), "{name}");
        assert_eq!(decode(half), long::decode(word), "{name}");
        assert_eq!(long::instruction(half.into()), decode(half), "{name}");
    }
}

/// The halves that are instructions, of those that a filter lets through.
fn legal(filter: impl Fn(u16) -> bool) -> usize {
    let halves = (0..=u16::MAX).filter(|&half| filter(half));
    halves.filter(|&half| decode(half).is_some()).count()
}

/// Whether a half has a value in some bits.
fn is(half: u16, mask: u16, value: u16) -> bool {
    half & mask == value
}

// The standard's tables of the three quadrants, with each immediate's zero where it is reserved and
// sixteen registers in a full field: a table of how many halves each form has.
#[test]
fn forms_by_their_number_of_halves() {
    let forms: &[(&str, u16, u16, usize)] = &[
        ("C.ADDI4SPN", 0xE003, 0x0000, 255 * 8),
        ("C.FLD", 0xE003, 0x2000, 0),
        ("C.LW", 0xE003, 0x4000, 32 * 64),
        ("C.LD", 0xE003, 0x6000, 32 * 64),
        ("reserved", 0xE003, 0x8000, 0),
        ("C.FSD", 0xE003, 0xA000, 0),
        ("C.SW", 0xE003, 0xC000, 32 * 64),
        ("C.SD", 0xE003, 0xE000, 32 * 64),
        ("C.ADDI", 0xE003, 0x0001, 64 * 16),
        ("C.JAL", 0xE003, 0x2001, 2048),
        ("C.LI", 0xE003, 0x4001, 64 * 16),
        ("C.LUI and C.ADDI16SP", 0xE003, 0x6001, 63 * 16),
        ("C.SRLI", 0xEC03, 0x8001, 32 * 8),
        ("C.SRAI", 0xEC03, 0x8401, 32 * 8),
        ("C.ANDI", 0xEC03, 0x8801, 64 * 8),
        ("C.SUB, C.XOR, C.OR and C.AND", 0xFC03, 0x8C01, 4 * 64),
        ("C.SUBW, C.ADDW and reserved", 0xFC03, 0x9C01, 0),
        ("C.J", 0xE003, 0xA001, 2048),
        ("C.BEQZ", 0xE003, 0xC001, 256 * 8),
        ("C.BNEZ", 0xE003, 0xE001, 256 * 8),
        ("C.SLLI", 0xE003, 0x0002, 32 * 16),
        ("C.FLDSP", 0xE003, 0x2002, 0),
        ("C.LWSP", 0xE003, 0x4002, 64 * 15),
        ("C.LDSP", 0xE003, 0x6002, 64 * 15),
        ("C.JR and C.MV", 0xF003, 0x8002, 15 + 16 * 15),
        (
            "C.EBREAK, C.JALR and C.ADD",
            0xF003,
            0x9002,
            1 + 15 + 16 * 15,
        ),
        ("C.FSDSP", 0xE003, 0xA002, 0),
        ("C.SWSP", 0xE003, 0xC002, 64 * 16),
        ("C.SDSP", 0xE003, 0xE002, 64 * 16),
        ("long words", 0x0003, 0x0003, 0),
    ];
    let mut total = 0;
    for &(name, mask, value, halves) in forms {
        assert_eq!(legal(|half| is(half, mask, value)), halves, "{name}");
        total += halves;
    }
    assert_eq!(legal(|_| true), total);
}

// Reserved code points by hand.
#[test]
fn reserved_halves() {
    let halves: &[(&str, u16)] = &[
        ("the zero half", 0x0000),
        ("C.ADDI4SPN 0 to c9", 0x0004),
        ("C.ADDI16SP 0", 0x6101),
        ("C.LUI 0 to c1", 0x6081),
        ("C.LUI 0 to c0", 0x6001),
        ("C.LWSP to c0", 0x4002),
        ("C.LDSP to c0", 0x6002),
        ("C.JR of c0", 0x8002),
        ("C.SRLI by 32", 0x9001),
        ("C.SRAI by 32", 0x9401),
        ("C.SLLI by 32", 0x1082),
        ("C.SLLI of c0 by 32", 0x1002),
        ("C.SUBW", 0x9C01),
        ("C.ADDW", 0x9C21),
        ("all ones", 0xFFFF),
    ];
    for &(name, half) in halves {
        assert_eq!(decode(half), None, "{name}");
    }
}

// The standard's hints: those that write c0, by the long form; those that would copy a register to
// itself do nothing, since the long form would make an integer of a capability.
#[test]
fn hints_change_nothing() {
    const NOP: u32 = 0x0000_0013;
    let pairs: &[(&str, u16, u32)] = &[
        ("c.nop 1", 0x0005, 0x0010_0013),
        ("c.li x0, 1", 0x4005, 0x0010_0013),
        ("c.lui x0, 1", 0x6005, 0x0000_1037),
        ("c.slli x0, 1", 0x0006, 0x0010_1013),
        ("c.mv x0, x1", 0x8006, 0x0010_0033),
        ("c.add x0, x1", 0x9006, 0x0010_0033),
        ("c.addi x10, 0", 0x0501, NOP),
        ("c.addi x2, 0", 0x0101, NOP),
        ("c.srli x8, 0", 0x8001, NOP),
        ("c.srai x8, 0", 0x8401, NOP),
        ("c.slli x1, 0", 0x0082, NOP),
        ("c.slli x0, 0", 0x0002, NOP),
    ];
    for &(name, half, word) in pairs {
        assert!(decode(half).is_some(), "{name}");
        assert_eq!(decode(half), long::decode(word), "{name}");
    }
}

// A register above 15 in a full field is illegal, in a hint too: the five bits at 7 and at 2.
#[test]
fn registers_above_15() {
    let first: &[u16] = &[
        0x0001, 0x4005, 0x6005, 0x0006, 0x4002, 0x6002, 0x8002, 0x8006, 0x9002, 0x9006,
    ];
    for register in 16..32 {
        for &form in first {
            let half = form & !0x0F80 | register << 7;
            assert_eq!(decode(half), None, "{half:04x}");
        }
        // C.MV and C.ADD from it, to c0 too; C.SWSP and C.SDSP of it.
        for form in [0x8002, 0x8082, 0x9002, 0x9082, 0xC002, 0xE002] {
            let half = form | register << 2;
            assert_eq!(decode(half), None, "{half:04x}");
        }
    }
}
