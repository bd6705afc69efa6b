//! Jumps, branches, sentries, MRET and the special capability registers.

use super::bench::*;
use crate::assemble as asm;
use crate::capability::{set_bounds, Capability};

fn run_one(bench: &mut Bench, word: u32) {
    bench.program(&[word]);
    assert_eq!(bench.step(), RETIRED);
}

// The standard's six branches, taken and not, signed and unsigned.
#[test]
fn branches() {
    let taken = |funct3: u32, left: u32, right: u32| {
        let mut bench = Bench::new();
        bench.set(1, integer(left));
        bench.set(2, integer(right));
        run_one(&mut bench, asm::b(64, 2, 1, funct3));
        match bench.get(PCC).address - START {
            64 => true,
            4 => false,
            other => panic!("PCC moved by {other}"),
        }
    };
    let minus = 0xFFFF_FFFF;
    for (funct3, less, same, greater) in [
        (0, false, true, false),
        (1, true, false, true),
        (4, false, false, true),
        (5, true, true, false),
        (6, true, false, false),
        (7, false, true, true),
    ] {
        // 1 against minus one: less unsigned, greater signed.
        assert_eq!(taken(funct3, 1, minus), less);
        assert_eq!(taken(funct3, minus, minus), same);
        assert_eq!(taken(funct3, minus, 1), greater);
    }
}

// CHERIoT report, CJAL: the link is the next PCC as a sentry, enabling (3) if MIE is set and
// disabling (2) if not.
#[test]
fn jump_and_link() {
    for (mstatus, sentry) in [(0, 2), (8, 3), (0x80, 2), (0xFFFF_FFFF, 3)] {
        let mut bench = Bench::new();
        bench.regs[MSTATUS] = mstatus;
        run_one(&mut bench, asm::cjal(0x40, 3));
        assert_eq!(bench.get(PCC), tagged(START + 0x40, EXECUTABLE_ROOT));
        let link = sealed(tagged(START + 4, EXECUTABLE_ROOT), sentry);
        assert_eq!(bench.get(3), link);
        assert_eq!(bench.regs[MSTATUS], mstatus);
    }
}

// CHERIoT report, CJALR: the immediate is added to the address and bit 0 cleared; cs1 may be
// cd.
#[test]
fn jump_register_and_link() {
    let target = set_bounds(tagged(START + 0x40, EXECUTABLE_ROOT), 32);
    let mut bench = Bench::new();
    bench.set(3, target);
    run_one(&mut bench, asm::cjalr(5, 3, 3));
    assert_eq!(bench.get(PCC), tagged(START + 0x44, target.metadata));
    let link = sealed(tagged(START + 4, EXECUTABLE_ROOT), 2);
    assert_eq!(bench.get(3), link);
}

// CHERIoT report, 7.13.2: type 1 leaves MIE, 2 clears it, 3 sets it; the link is sealed with
// the interrupt state from before. Document 01: the sentry is unsealed before the jump.
#[test]
fn jumps_through_sentries() {
    for (kind, mie_before, mie_after, link_type) in [
        (1, 0, 0, 2),
        (1, 8, 8, 3),
        (2, 0, 0, 2),
        (2, 8, 0, 3),
        (3, 0, 8, 2),
        (3, 8, 8, 3),
    ] {
        let mut bench = Bench::new();
        bench.regs[MSTATUS] = 0x1000 | mie_before;
        let target = tagged(START + 0x40, EXECUTABLE_ROOT);
        bench.set(1, sealed(target, kind));
        run_one(&mut bench, asm::cjalr(0, 1, 3));
        assert_eq!(bench.get(PCC), target);
        assert_eq!(bench.regs[MSTATUS], 0x1000 | mie_after);
        assert_eq!(
            bench.get(3),
            sealed(tagged(START + 4, EXECUTABLE_ROOT), link_type)
        );
    }
}

// A call and its return: the link is a sentry and brings MIE back.
#[test]
fn call_and_return() {
    let mut bench = Bench::new();
    bench.regs[MSTATUS] = 8;
    bench.set(1, sealed(tagged(START + 0x40, EXECUTABLE_ROOT), 2));
    run_one(&mut bench, asm::cjalr(0, 1, 3));
    assert_eq!(bench.regs[MSTATUS], 0);
    run_one(&mut bench, asm::cjalr(0, 3, 0));
    assert_eq!(bench.get(PCC), tagged(START + 4, EXECUTABLE_ROOT));
    assert_eq!(bench.regs[MSTATUS], 8);
}

// Document 01, "Traps": the link is made by a move; at the end of the space it wraps to 0 and
// is untagged.
#[test]
fn a_link_past_the_space() {
    let metadata = 0x5E00_0000 | 4 << 18 | 0x100;
    let mut bench = Bench::new();
    bench.start = 0xFFFF_FF00;
    bench.set(PCC, tagged(0xFFFF_FFFC, metadata));
    run_one(&mut bench, asm::cjal(-4, 3));
    assert_eq!(bench.get(PCC), tagged(0xFFFF_FFF8, metadata));
    assert_eq!(bench.get(3), untagged(sealed(tagged(0, metadata), 2)));
}

// CHERIoT report, 7.11, and the privileged standard: MRET moves MEPCC to PCC, MIE takes MPIE
// and MPIE becomes 1. Documents 01 and 02, 3: one low address bit cleared by the address-move rule.
#[test]
fn trap_return() {
    for (before, after) in [
        (0, 0x80),
        (0x80, 0x88),
        (8, 0x80),
        (0xFFFF_FF7F, 0xFFFF_FFF7),
    ] {
        let mut bench = Bench::new();
        bench.regs[MSTATUS] = before;
        let mepcc = tagged(START + 0x43, EXECUTABLE_ROOT);
        bench.set(MEPCC, mepcc);
        run_one(&mut bench, asm::MRET);
        assert_eq!(bench.get(PCC), tagged(START + 0x42, EXECUTABLE_ROOT));
        assert_eq!(bench.get(MEPCC), mepcc);
        assert_eq!(bench.regs[MSTATUS], after);
    }
}

// Document 01, "Traps": a return is a move, of an aligned address too: a sealed MEPCC gives an
// untagged PCC, and the next step traps on its tag.
#[test]
fn trap_return_to_a_sealed_capability() {
    let mut bench = Bench::new();
    let mepcc = sealed(tagged(START + 0x40, EXECUTABLE_ROOT), 1);
    bench.set(MEPCC, mepcc);
    run_one(&mut bench, asm::MRET);
    assert_eq!(bench.get(PCC), untagged(mepcc));
    assert_eq!(bench.step(), TRAPPED);
    assert_eq!(bench.regs[MTVAL], 1024 + 2);
}

// CHERIoT report, CSpecialRW: reads the old value, writes cs1 unless it is c0; 28 MTCC,
// 29 MTDC, 30 MScratchC, 31 MEPCC.
#[test]
fn special_registers() {
    let new = set_bounds(tagged(START + 0x40, EXECUTABLE_ROOT), 16);
    for (scr, place) in [(28, MTCC), (29, MTDC), (30, MSCRATCHC), (31, MEPCC)] {
        let mut bench = Bench::new();
        let old = bench.get(place);
        bench.set(1, new);
        bench.retire(asm::two(0x01, 3, 0, scr));
        assert_eq!((bench.get(3), bench.get(place)), (old, old));
        bench.retire(asm::two(0x01, 1, 1, scr));
        assert_eq!((bench.get(1), bench.get(place)), (old, new));
    }
}

// Document 01, "Traps", and document 02, 3: MTCC and MEPCC are written and read by a move to the
// address without its two low bits and its lowest, of an aligned address too. MTDC and MScratchC
// are not.
#[test]
fn special_registers_legalise() {
    let code = set_bounds(tagged(START + 0x40, EXECUTABLE_ROOT), 16);
    let at = |offset: u32| Capability {
        address: START + 0x40 + offset,
        ..code
    };
    let locked = sealed(code, 1);
    // Cleared bits can leave the representable range: [.., +3) from an odd base.
    let edge = set_bounds(tagged(START + 0x41, EXECUTABLE_ROOT), 3);
    let edge_after = untagged(tagged(START + 0x40, edge.metadata));
    for (scr, place, odd_after) in [
        (28, MTCC, Some(at(4))),
        (29, MTDC, None),
        (30, MSCRATCHC, None),
        (31, MEPCC, Some(at(6))),
    ] {
        let values = [
            (at(7), odd_after),
            (locked, Some(untagged(locked))),
            (edge, Some(edge_after)),
        ];
        for (value, through) in values {
            let expected = odd_after.and(through).unwrap_or(value);
            let mut writing = Bench::new();
            writing.set(1, value);
            writing.retire(asm::two(0x01, 0, 1, scr));
            assert_eq!(writing.get(place), expected);
            let mut reading = Bench::new();
            reading.set(place, value);
            reading.retire(asm::two(0x01, 3, 0, scr));
            assert_eq!(reading.get(3), expected);
            assert_eq!(reading.get(place), value);
        }
    }
}
