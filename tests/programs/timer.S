// The timer (document 02, 6). Time is one more after each step, trapped ones too, and is 0 after 2^64 - 1; where MIE is
// 1 and compare is not above it, the step is the interrupt, before anything of the fetch: mcause 0x80000007,
// mtval 0. With MIE clear time goes by compare unseen. There is no CSR of time.

#include "cheriot.inc"

    // Time is 2^32 - 4, compare 2^32 + 2.
    // lend: MTCC = handler 0x5e3e0000 1
    // lend: time_low = 0xfffffffc
    // lend: compare_low = 2
    // lend: compare_high = 1
    addi  x5, x0, 1             // 2^32 - 4
    csrrsi x0, mstatus, 8       // 2^32 - 3
    addi  x5, x5, 1             // 2^32 - 2
    ecall                       // 2^32 - 1
next:
    addi  x5, x5, 1             // 2^32 + 6: interrupted; 2^32 + 15
loop:
    j     loop
unread:
    csrr  x7, time

    // An interrupt is counted, and interrupts are left off; any other trap is stepped over.
handler:
    csrr  x14, mcause
    bltz  x14, 1f
    cspecialr c15, MEPCC
    cincaddrimm c15, c15, 4
    cspecialrw c0, MEPCC, c15
    mret
1:
    addi  x13, x13, 1
    csrr  x12, mtval
    cspecialr c11, MEPCC
    li    x10, 0x80
    csrrc x0, mstatus, x10
    mret

// The trap at 2^32 - 1, five words of the handler, of which three are past compare, MRET, and then the interrupt.
// run: 10
// expect: trapped = 1
// expect: retired = 9
// expect: mcause = 11
// expect: mstatus = 0x88
// expect: time_low = 6
// expect: time_high = 1
// expect: PCC = next 0x5e3e0000 1
// run: 1
// expect: trapped = 1
// expect: retired = 0
// expect: mcause = 0x80000007
// expect: mtval = 0
// expect: mstatus = 0x80
// expect: x5 = 2
// expect: MEPCC = next 0x5e3e0000 1
// expect: PCC = handler 0x5e3e0000 1
// expect: time_low = 7
// Its eight words, then the word that had been interrupted.
// run: 9
// expect: trapped = 0
// expect: x13 = 1
// expect: x12 = 0
// expect: c11 = next 0x5e3e0000 1
// expect: x5 = 3
// expect: mstatus = 0x80
// expect: time_low = 16
// expect: time_high = 1
// expect: PCC = loop 0x5e3e0000 1

// At the last time of all, with a PCC that could fetch nothing.
// lend: PCC = loop 0x5e3e0000 0
// lend: mstatus = 0xffffffff
// lend: time_low = 0xffffffff
// lend: time_high = 0xffffffff
// lend: compare_low = 0xffffffff
// lend: compare_high = 0xffffffff
// run: 1
// expect: trapped = 1
// expect: mcause = 0x80000007
// expect: mtval = 0
// expect: mstatus = 0xfffffff7
// expect: MEPCC = loop 0x5e3e0000 0
// expect: PCC = handler 0x5e3e0000 1
// expect: time_low = 0
// expect: time_high = 0
// expect: compare_low = 0xffffffff
// expect: compare_high = 0xffffffff

// With MIE clear a time of any height is nothing to a program.
// lend: PCC = loop 0x5e3e0000 1
// lend: mstatus = 0xfffffff7
// lend: compare_low = 0
// lend: compare_high = 0
// run: 5
// expect: retired = 5
// expect: time_low = 5
// expect: PCC = loop 0x5e3e0000 1

// A CSR of time is none.
// lend: PCC = unread 0x5e3e0000 1
// run: 1
// expect: trapped = 1
// expect: mcause = 2
// expect: mtval = 0xc01023f3
