//! Every trap cause (document 01, "Traps"; CHERIoT report, Table 7.3). mtval of a capability
//! trap is register * 32 + cause, with register 32 for PCC.

use super::bench::*;
use crate::assemble as asm;
use crate::capability::{narrow, set_bounds, Capability, GL, LD, MC, SD, SL, SR};

const C1: u32 = 1;
const C2: u32 = 2;

fn bench_with(c1: Capability, c2: Capability) -> Bench {
    let mut bench = Bench::new();
    bench.set(1, c1);
    bench.set(2, c2);
    bench
}

fn without(capability: Capability, lost: u32) -> Capability {
    narrow(capability, !lost)
}

// A fetch: tag, seal, EX and bounds of PCC, alignment, access. The order: each state also fails the
// checks that come later.
#[test]
fn fetch_capability_causes() {
    let outside = START + 0x1001;
    let cases = [
        (untagged(sealed(memory(outside, 1), 1)), 1024 + 2),
        (sealed(memory(outside, 1), 1), 1024 + 3),
        (memory(outside, 1), 1024 + 17),
        (set_bounds(tagged(outside, EXECUTABLE_ROOT), 1), 1024 + 1),
    ];
    for (pcc, mtval) in cases {
        let mut bench = Bench::new();
        bench.set(PCC, pcc);
        assert_eq!(bench.step(), TRAPPED);
        assert_eq!(bench.regs[MCAUSE], 28);
        assert_eq!(bench.regs[MTVAL], mtval);
        assert_eq!(bench.get(PCC), bench.get(MTCC));
    }
}

// A fetch that is misaligned is mcause 0, one outside memory 1, with the address. MEPCC gets the
// address with its lowest bit cleared.
#[test]
fn fetch_ordinary_causes() {
    let mut bench = Bench::new();
    bench.set(PCC, tagged(START + 0x1003, EXECUTABLE_ROOT));
    bench.trap_in_place(0, START + 0x1003);
    assert_eq!(bench.get(MEPCC), tagged(START + 0x1002, EXECUTABLE_ROOT));
    for outside in [START + 0x100, START + 0x102, START - 2, START - 4] {
        let mut bench = Bench::new();
        bench.set(PCC, tagged(outside, EXECUTABLE_ROOT));
        bench.trap_in_place(1, outside);
    }
}

// A trap's entry is by moves, of aligned addresses too: a sealed PCC arrives untagged in MEPCC, a
// sealed MTCC in PCC.
#[test]
fn trap_entry_with_sealed_capabilities() {
    let mut bench = Bench::new();
    let pcc = sealed(tagged(START, EXECUTABLE_ROOT), 1);
    let mtcc = sealed(tagged(HANDLER + 3, EXECUTABLE_ROOT), 1);
    bench.set(PCC, pcc);
    bench.set(MTCC, mtcc);
    assert_eq!(bench.step(), TRAPPED);
    assert_eq!(bench.get(MEPCC), untagged(pcc));
    let entered = Capability {
        address: HANDLER,
        ..untagged(mtcc)
    };
    assert_eq!(bench.get(PCC), entered);
    assert_eq!(bench.get(MTCC), mtcc);
    // And the next step traps on the tag of PCC.
    assert_eq!(bench.step(), TRAPPED);
    assert_eq!(bench.regs[MTVAL], 1024 + 2);
}

// The privileged standard: MPIE takes MIE, MIE becomes 0; the other bits stay.
#[test]
fn trap_entry_and_mstatus() {
    for (before, after) in [
        (0x0000_0008, 0x0000_0080),
        (0x0000_0080, 0x0000_0000),
        (0xFFFF_FFFF, 0xFFFF_FFF7),
        (0xFFFF_FF77, 0xFFFF_FF77 & !0x88),
    ] {
        let mut bench = Bench::new();
        bench.regs[MSTATUS] = before;
        bench.trap(asm::ECALL, 11, 0);
        assert_eq!(bench.regs[MSTATUS], after);
    }
}

// Illegal words are mcause 2, with the word; EBREAK is 3 and ECALL 11, with 0.
#[test]
fn illegal_breakpoint_ecall() {
    Bench::new().trap(0, 2, 0);
    Bench::new().trap(0xFFFF_FFFF, 2, 0xFFFF_FFFF);
    // CLMUL of Zbc, which is out.
    let multiply = asm::r(5, 1, 1, 1, 1, 0x33);
    Bench::new().trap(multiply, 2, multiply);
    let above = asm::addi(0, 16, 1);
    Bench::new().trap(above, 2, above);
    Bench::new().trap(asm::EBREAK, 3, 0);
    Bench::new().trap(asm::ECALL, 11, 0);
}

// CHERIoT report, 7.6, and document 01: tag, seal, right, bounds, alignment, access. Each
// state also fails everything after its cause. Register 1: 32 + cause.
#[test]
fn load_causes() {
    let far = START + 0x1001;
    let cases = [
        (untagged(sealed(without(memory(far, 1), LD), 1)), 28, 32 + 2),
        (sealed(without(memory(far, 1), LD), 1), 28, 32 + 3),
        (without(memory(far, 1), LD), 28, 32 + 18),
        (memory(far, 1), 28, 32 + 1),
        (memory(far, 16), 4, far),
        (memory(START + 0x100, 16), 5, START + 0x100),
    ];
    // LH, LW, CLC and LHU; a byte is never misaligned.
    for funct3 in [1, 2, 3, 5] {
        for (c1, mcause, mtval) in cases {
            let word = asm::load(funct3, 3, C1, 0);
            bench_with(c1, integer(0)).trap(word, mcause, mtval);
        }
    }
    bench_with(memory(START, 4), integer(0)).trap(asm::load(0, 3, C1, 4), 28, 32 + 1);
    bench_with(memory(far, 4), integer(0)).trap(asm::load(4, 3, C1, 0), 5, far);
}

// The same for stores: cause 19, misaligned 6, outside 7.
#[test]
fn store_causes() {
    let far = START + 0x1001;
    let cases = [
        (untagged(sealed(without(memory(far, 1), SD), 1)), 28, 32 + 2),
        (sealed(without(memory(far, 1), SD), 1), 28, 32 + 3),
        (without(memory(far, 1), SD), 28, 32 + 19),
        (memory(far, 1), 28, 32 + 1),
        (memory(far, 16), 6, far),
        (memory(START + 0x100, 16), 7, START + 0x100),
    ];
    for funct3 in [1, 2, 3] {
        for (c1, mcause, mtval) in cases {
            let word = asm::store(funct3, C2, C1, 0);
            bench_with(c1, integer(0)).trap(word, mcause, mtval);
        }
    }
    bench_with(memory(START, 4), integer(0)).trap(asm::store(0, C2, C1, 4), 28, 32 + 1);
    bench_with(memory(far, 4), integer(0)).trap(asm::store(0, C2, C1, 0), 7, far);
}

// CHERIoT report, CLC and CSC: a capability's address is a multiple of 8.
#[test]
fn capabilities_are_aligned_to_eight() {
    let bench = bench_with(memory(START + 0x40, 64), integer(0));
    for offset in 1..8 {
        let address = START + 0x40 + offset as u32;
        bench.clone().trap(asm::load(3, 3, C1, offset), 4, address);
        bench
            .clone()
            .trap(asm::store(3, C2, C1, offset), 6, address);
    }
}

// CHERIoT report, CSC: without MC a tagged value is 0x15 (21), a tagged local value without
// SL is 0x16 (22); both come before the bounds check; untagged values ask neither.
#[test]
fn store_capability_causes() {
    let store = asm::store(3, C2, C1, 0);
    let global = tagged(0, MEMORY_ROOT);
    let local = without(global, GL);
    let narrow_bounds = memory(START + 0x40, 4);
    bench_with(without(narrow_bounds, MC), local).trap(store, 28, 32 + 21);
    bench_with(without(narrow_bounds, SL), local).trap(store, 28, 32 + 22);
    bench_with(without(narrow_bounds, SL), global).trap(store, 28, 32 + 1);
    bench_with(narrow_bounds, local).trap(store, 28, 32 + 1);
    let granule = memory(START + 0x40, 8);
    bench_with(without(granule, SL), global).retire(store);
    bench_with(granule, local).retire(store);
    bench_with(without(granule, SL), untagged(local)).retire(store);
    bench_with(without(granule, MC), untagged(local)).retire(store);
}

// CHERIoT report, 7.9: without SR on PCC, CSR accesses and MRET are refused with cause 24;
// PCC is named. CSpecialRW names the special register: 0b1 @ scr.
#[test]
fn system_register_causes() {
    let refused = |word: u32, mtval: u32| {
        let mut bench = Bench::new();
        bench.set(PCC, without(tagged(START, EXECUTABLE_ROOT), SR));
        bench.trap(word, 28, mtval);
    };
    let numbers = [asm::MSTATUS, asm::MCAUSE, asm::MTVAL];
    for number in numbers.into_iter().chain([asm::MSHWM, asm::MSHWMB]) {
        for funct3 in [1, 2, 3, 5, 6, 7] {
            refused(asm::csr(funct3, number, 3, 0), 1024 + 24);
        }
    }
    refused(asm::MRET, 1024 + 24);
    for scr in 28..=31 {
        refused(asm::two(0x01, 3, 0, scr), (32 + scr) * 32 + 24);
    }
}

// Document 01: a CSR number that is none of the five is illegal, SR or no SR; the CHERIoT
// report, CSpecialRW: a special register that does not exist is illegal first.
#[test]
fn unknown_system_registers() {
    for pcc in [
        tagged(START, EXECUTABLE_ROOT),
        without(tagged(START, EXECUTABLE_ROOT), SR),
    ] {
        // mtvec, mie, mepc, mip, cycle, time and its upper half, and the neighbours of the mark pair.
        for number in [
            0x305, 0x304, 0x341, 0x344, 0xC00, 0xC01, 0xC81, 0xBC0, 0xBC3,
        ] {
            let mut bench = Bench::new();
            bench.set(PCC, pcc);
            let word = asm::csr(2, number, 3, 0);
            bench.trap(word, 2, word);
        }
        let mut bench = Bench::new();
        bench.set(PCC, pcc);
        let word = asm::two(0x01, 3, 0, 27);
        bench.trap(word, 2, word);
    }
}

// CHERIoT report, CJALR, its checks in order, each state failing the later ones too.
// Register 1: 32 + cause.
#[test]
fn jump_register_causes() {
    let jump = asm::cjalr(2, C1, 3);
    let code = |length| set_bounds(tagged(START, EXECUTABLE_ROOT), length);
    let data = memory(START, 4);
    bench_with(untagged(sealed(data, 1)), integer(0)).trap(jump, 28, 32 + 2);
    bench_with(sealed(data, 1), integer(0)).trap(jump, 28, 32 + 3);
    bench_with(data, integer(0)).trap(jump, 28, 32 + 17);
    bench_with(code(3), integer(0)).trap(jump, 28, 32 + 1);
    let mut even = bench_with(code(4), integer(0));
    even.program(&[asm::cjalr(3, C1, 3)]);
    assert_eq!(even.step(), RETIRED);
    assert_eq!(even.get(PCC).address, START + 2);
    // A sentry with an offset, and sealed executable capabilities that are no sentries.
    bench_with(sealed(code(8), 1), integer(0)).trap(asm::cjalr(4, C1, 3), 28, 32 + 3);
    for other in [4, 5, 6, 7] {
        let target = sealed(code(8), other);
        bench_with(target, integer(0)).trap(asm::cjalr(0, C1, 3), 28, 32 + 3);
    }
}

// CHERIoT report, CJAL and 7.5: two bytes at the target in bounds of PCC (register 32); taken
// branches the same, branches not taken check nothing.
#[test]
fn jump_and_branch_causes() {
    let code = set_bounds(tagged(START, EXECUTABLE_ROOT), 15);
    let mut bench = Bench::new();
    bench.set(PCC, code);
    for offset in [14, 16, -2, -4] {
        bench.clone().trap(asm::cjal(offset, 3), 28, 1024 + 1);
        bench.clone().trap(asm::b(offset, 0, 0, 0), 28, 1024 + 1);
        bench.clone().retire(asm::b(offset, 0, 0, 1));
    }
    for word in [asm::cjal(12, 3), asm::b(12, 0, 0, 0), asm::cjal(10, 3)] {
        let mut bench = bench.clone();
        bench.program(&[word]);
        assert_eq!(bench.step(), RETIRED);
    }
}
