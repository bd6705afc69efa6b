//! The timer (document 02, 6): time goes on by one a step whatever the step does, and the interrupt comes
//! before anything of a fetch, where MIE is 1 and compare is not above time.

use super::bench::*;
use crate::assemble as asm;

const MIE: u32 = 8;
const TIMER: u32 = 0x8000_0007;

/// A bench whose MIE is set, by its time and compare.
fn at(time: u64, compare: u64) -> Bench {
    let mut bench = Bench::new();
    bench.regs[MSTATUS] = MIE;
    bench.set_long(TIME, time);
    bench.set_long(COMPARE, compare);
    bench.program(&[asm::NOP; 4]);
    bench
}

// Both are unsigned numbers of 64 bits: at least compare, and no less.
#[test]
fn interrupted_from_compare_on() {
    let top = u64::MAX;
    for (time, compare) in [
        (0, 0),
        (5, 5),
        (6, 5),
        (top, 5),
        (top, top),
        (1 << 32, 0xFFFF_FFFF),
        (1 << 63, (1 << 63) - 1),
        (0x2_0000_0000, 0x1_FFFF_FFFF),
        (top, 0),
    ] {
        at(time, compare).trap_in_place(TIMER, 0);
        let mut off = at(time, compare);
        off.regs[MSTATUS] = !MIE;
        assert_eq!(off.step(), RETIRED, "{time} {compare}");
    }
    for (time, compare) in [
        (4, 5),
        (0, top),
        (top - 1, top),
        (0xFFFF_FFFF, 1 << 32),
        ((1 << 63) - 1, 1 << 63),
        (0x1_FFFF_FFFF, 0x2_0000_0000),
    ] {
        assert_eq!(at(time, compare).step(), RETIRED, "{time} {compare}");
    }
}

// Before anything of the fetch: with a PCC that lacks its tag, is sealed, may not run, or is elsewhere.
#[test]
fn an_interrupt_comes_before_the_fetch() {
    let code = tagged(START, EXECUTABLE_ROOT);
    let counters = [
        untagged(code),
        sealed(code, 1),
        memory(START, 8),
        tagged(START + 1, EXECUTABLE_ROOT),
        tagged(START + 0x1000, EXECUTABLE_ROOT),
        integer(START + 3),
    ];
    for pcc in counters {
        let mut bench = at(9, 9);
        bench.set(PCC, pcc);
        assert_eq!(bench.step(), TRAPPED);
        assert_eq!((bench.regs[MCAUSE], bench.regs[MTVAL]), (TIMER, 0));
        assert_eq!(bench.regs[MSTATUS], 0x80);
        assert_eq!(bench.get(MEPCC).address, pcc.address & !1);
        assert_eq!(bench.get(PCC), bench.get(MTCC));
        assert_eq!(bench.long(TIME), 10);
    }
    // Neither is what lies there executed.
    let mut store = at(9, 9);
    store.set(1, memory(START + 0x40, 8));
    store.program(&[asm::store(2, 1, 1, 0)]);
    store.trap_in_place(TIMER, 0);
}

// One more in each step: retired, trapped and interrupted; after the last number comes 0.
#[test]
fn time_goes_on_in_every_step() {
    for (time, after) in [
        (0, 1),
        (0xFFFF_FFFF, 1 << 32),
        (0x1_FFFF_FFFF, 2 << 32),
        (u64::MAX, 0),
    ] {
        let mut interrupted = at(time, 0);
        assert_eq!(interrupted.step(), TRAPPED);
        let mut retired = at(time, 0);
        retired.regs[MSTATUS] = 0;
        assert_eq!(retired.step(), RETIRED);
        let mut trapped = retired.clone();
        trapped.set_long(TIME, time);
        trapped.program(&[asm::ECALL]);
        assert_eq!(trapped.step(), TRAPPED);
        assert_eq!(trapped.regs[MCAUSE], 11);
        for bench in [interrupted, retired, trapped] {
            assert_eq!(bench.long(TIME), after);
            assert_eq!(bench.long(COMPARE), 0);
        }
    }
}

// A run is its steps: MIE is cleared by the entry, so that the handler goes on, and set again by MRET.
#[test]
fn a_handler_runs_undisturbed() {
    let mut bench = at(0, 2);
    let handler = (HANDLER - START) as usize;
    for (at, word) in [(0, asm::NOP), (4, asm::MRET)] {
        bench.mem[handler + at..][..4].copy_from_slice(&word.to_le_bytes());
    }
    // Two words, the interrupt, two of the handler, the interrupt again.
    assert_eq!(bench.run(6), 2 << 24 | 4);
    assert_eq!(bench.long(TIME), 6);
    assert_eq!(bench.get(MEPCC).address, START + 8);
    assert_eq!(bench.get(PCC).address, HANDLER);
    let mut steps = at(0, 2);
    steps.mem = bench.mem.clone();
    for _ in 0..6 {
        steps.step();
    }
    assert_eq!(steps, bench);
}

// A refused run counts no time, nor does one of no steps.
#[test]
fn time_stands_still_without_steps() {
    let mut bench = at(7, 7);
    let before = bench.clone();
    assert_eq!(bench.run(0), 0);
    assert_eq!(bench.run(1_000_001), 5 << 48);
    bench.regs[2] = 1;
    assert_eq!(bench.run(3), 4 << 48);
    bench.regs[2] = 0;
    assert_eq!(bench, before);
}
