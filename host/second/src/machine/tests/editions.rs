//! The two editions (document 02, 8): which sealed targets a jump takes, the link's type, MIE, and
//! refusal 7.

use super::bench::*;
use crate::assemble as asm;
use crate::capability::Capability;

const REPORT: u32 = 0;
const LATER: u32 = 1;
const SEAL: u32 = 3;

/// CJALR cd, cs1 through a capability of a type, from a state of an edition.
fn jump(edition: u32, mstatus: u32, target: Capability, cd: u32, cs1: u32, offset: i32) -> Bench {
    let mut bench = Bench::new();
    bench.edition = edition;
    bench.regs[MSTATUS] = mstatus;
    bench.set(cs1 as usize, target);
    bench.program(&[asm::cjalr(offset, cs1, cd)]);
    bench
}

// The types that each kind of jump takes, by edition: a return, calls that link c1, others.
#[test]
fn accepted_targets() {
    let unsealed = tagged(START + 0x40, EXECUTABLE_ROOT);
    let kinds = [
        (REPORT, 0, 1, &[1, 2, 3][..]),
        (REPORT, 1, 1, &[1, 2, 3]),
        (REPORT, 5, 6, &[1, 2, 3]),
        (LATER, 0, 1, &[4, 5]),
        (LATER, 1, 1, &[1, 2, 3]),
        (LATER, 1, 5, &[1, 2, 3]),
        (LATER, 0, 5, &[1]),
        (LATER, 5, 1, &[1]),
        (LATER, 2, 15, &[1]),
    ];
    for (edition, cd, cs1, taken) in kinds {
        for kind in 0..8 {
            let mut bench = jump(edition, 0, sealed(unsealed, kind), cd, cs1, 0);
            if kind == 0 || taken.contains(&kind) {
                assert_eq!(bench.step(), RETIRED, "{edition} {cd} {cs1} {kind}");
                assert_eq!(bench.get(PCC), unsealed);
            } else {
                bench.trap_in_place(28, cs1 * 32 + SEAL);
            }
            // An offset other than 0: unsealed targets alone.
            let mut offset = jump(edition, 0, sealed(unsealed, kind), cd, cs1, 4);
            if kind == 0 {
                assert_eq!(offset.step(), RETIRED);
            } else {
                offset.trap_in_place(28, cs1 * 32 + SEAL);
            }
        }
    }
}

// What is not executable is no sentry, whatever its stored type; and the seal is tested first.
#[test]
fn data_is_no_sentry() {
    for (edition, cd, cs1) in [(REPORT, 0, 1), (LATER, 0, 1), (LATER, 1, 1), (LATER, 0, 5)] {
        for kind in 1..8 {
            let target = sealed(tagged(START + 0x40, MEMORY_ROOT), kind);
            jump(edition, 0, target, cd, cs1, 0).trap_in_place(28, cs1 * 32 + SEAL);
        }
    }
}

// The link of both jumps: 2 or 3 in the report, 4 or 5 in the later edition, by MIE before the jump.
#[test]
fn links() {
    for (edition, mie, kind) in [(REPORT, 0, 2), (REPORT, 8, 3), (LATER, 0, 4), (LATER, 8, 5)] {
        let link = sealed(tagged(START + 4, EXECUTABLE_ROOT), kind);
        let mut near = jump(edition, mie, integer(0), 0, 2, 0);
        near.program(&[asm::cjal(0x40, 5)]);
        assert_eq!(near.step(), RETIRED);
        assert_eq!(near.get(5), link);
        // Through a sentry that changes MIE, too.
        for sentry in [0, 1, 2, 3] {
            let target = sealed(tagged(START + 0x40, EXECUTABLE_ROOT), sentry);
            let mut far = jump(edition, mie, target, 1, 2, 0);
            assert_eq!(far.step(), RETIRED);
            assert_eq!(far.get(1), link);
        }
    }
}

// Types 2 and 4 clear MIE, 3 and 5 set it, 0 and 1 leave it; nothing else of mstatus moves.
#[test]
fn interrupts() {
    for (kind, cd, off, on) in [
        (0, 1, 0, 8),
        (1, 1, 0, 8),
        (2, 1, 0, 0),
        (3, 1, 8, 8),
        (4, 0, 0, 0),
        (5, 0, 8, 8),
    ] {
        for (before, after) in [(0, off), (8, on)] {
            let target = sealed(tagged(START + 0x40, EXECUTABLE_ROOT), kind);
            let mut bench = jump(LATER, 0xFFFF_FFF7 & !8 | before, target, cd, 1, 0);
            assert_eq!(bench.step(), RETIRED);
            assert_eq!(bench.regs[MSTATUS], 0xFFFF_FFF7 & !8 | after);
        }
    }
}

// A call and its return in the later edition bring MIE back; and the link opens by the return alone.
#[test]
fn call_and_return() {
    let mut bench = jump(
        LATER,
        8,
        sealed(tagged(START + 0x40, EXECUTABLE_ROOT), 2),
        1,
        2,
        0,
    );
    assert_eq!(bench.step(), RETIRED);
    assert_eq!(bench.regs[MSTATUS], 0);
    let called = bench.clone();
    bench.program(&[asm::cjalr(0, 1, 0)]);
    assert_eq!(bench.step(), RETIRED);
    assert_eq!(bench.get(PCC), tagged(START + 4, EXECUTABLE_ROOT));
    assert_eq!(bench.regs[MSTATUS], 8);
    for (cd, cs1) in [(1, 1), (5, 1), (0, 5)] {
        let mut other = called.clone();
        other.set(5, called.get(1));
        other.trap(asm::cjalr(0, cs1, cd), 28, cs1 * 32 + SEAL);
    }
}

// Document 01: the link is made by a move, which at the end of the space clears its tag; in both.
#[test]
fn a_link_past_the_space() {
    let metadata = 0x5E00_0000 | 4 << 18 | 0x100;
    let mut bench = Bench::new();
    bench.edition = LATER;
    bench.start = 0xFFFF_FF00;
    bench.set(PCC, tagged(0xFFFF_FFFC, metadata));
    bench.program(&[asm::cjal(-4, 3)]);
    assert_eq!(bench.step(), RETIRED);
    assert_eq!(bench.get(3), untagged(sealed(tagged(0, metadata), 4)));
}

// Refusal 7: any number but 0 and 1, after 1 to 5; nothing is changed.
#[test]
fn other_editions_are_refused() {
    for edition in [2, 3, 7, 0x100, 0x8000_0000, u32::MAX] {
        let mut bench = Bench::new();
        bench.edition = edition;
        let before = bench.clone();
        for steps in [0, 1, 1_000_000] {
            assert_eq!(bench.run(steps), 7 << 48);
        }
        assert_eq!(bench.run(1_000_001), 5 << 48);
        assert_eq!(bench.step(), 7 << 48);
        assert_eq!(bench, before);
        bench.regs[0] = 1;
        assert_eq!(bench.run(1_000_001), 4 << 48);
        bench.tags.push(0);
        assert_eq!(bench.step(), 3 << 48);
        bench.start = 4;
        assert_eq!(bench.step(), 2 << 48);
        bench.regs.pop();
        assert_eq!(bench.step(), 1 << 48);
    }
}
