// Fetches that trap, and what passes through MEPCC and MTCC on the way.
//
// Documents 01, "Traps", and 02, 3: of PCC, register 32, a fetch checks tag, seal, EX and bounds of two
// bytes; then that the address is even, and access; and if the word is long bounds of four, and access of
// its second half. Trap entry and return are moves to the address without its two low bits (MTCC) or its
// lowest (MEPCC), of an aligned one too, so a sealed capability loses its tag. In mstatus only MIE and
// MPIE change.

#include "cheriot.inc"

    nop
    nop
handler:
    nop
return:
    mret
read:
    cspecialr c5, MTCC

// No tag, though it is sealed and not executable.
// lend: PCC = 0x20000000 0x7e7e0000 0
// lend: MTCC = handler 0x5e3e0000 1
// run: 1
// expect: mcause = 28
// expect: mtval = 0x402
// expect: MEPCC = 0x20000000 0x7e7e0000 0
// expect: PCC = handler 0x5e3e0000 1
// Sealed, though it is not executable. MEPCC's copy loses the tag.
// lend: PCC = 0x20000000 0x7e7e0000 1
// run: 1
// expect: mtval = 0x403
// expect: MEPCC = 0x20000000 0x7e7e0000 0
// Not executable, though it is misaligned.
// lend: PCC = 0x20000003 0x7e3e0000 1
// run: 1
// expect: mtval = 0x411
// expect: MEPCC = 0x20000002 0x7e3e0000 1
// One byte in bounds, though it is misaligned: [0x20000000, 0x20000004) at 3: T 4, B 0.
// lend: PCC = 0x20000003 0x5e000800 1
// run: 1
// expect: mtval = 0x401
// expect: MEPCC = 0x20000002 0x5e000800 1
// A long word with two bytes in bounds: [0x20000000, 0x20000006) at 4: T 6, B 0.
// lend: PCC = 0x20000004 0x5e000c00 1
// run: 1
// expect: mtval = 0x401
// expect: MEPCC = 0x20000004 0x5e000c00 1
// Misaligned; MTCC's two low bits are cleared.
// lend: PCC = 0x20000003 0x5e3e0000 1
// lend: MTCC = handler+3 0x5e3e0000 1
// run: 1
// expect: trapped = 1
// expect: mcause = 0
// expect: mtval = 0x20000003
// expect: MEPCC = 0x20000002 0x5e3e0000 1
// expect: PCC = handler 0x5e3e0000 1
// expect: MTCC = handler+3 0x5e3e0000 1
// Outside memory; misaligned comes first.
// lend: PCC = 0x20001000 0x5e3e0000 1
// run: 1
// expect: mcause = 1
// expect: mtval = 0x20001000
// lend: PCC = 0x20001001 0x5e3e0000 1
// run: 1
// expect: mcause = 0
// expect: mtval = 0x20001001
// The last two bytes of memory: a short word runs, c.nop. Of a long one the second half is outside, and
// its address is in mtval; bounds come first: [0x20000f00, 0x20001000), T 0, B 0x100.
// lend: word 0x20000ffc = 0x00010000
// lend: PCC = 0x20000ffe 0x5e3e0000 1
// run: 1
// expect: retired = 1
// expect: PCC = 0x20001000 0x5e3e0000 1
// lend: word 0x20000ffc = 0x00130000
// lend: PCC = 0x20000ffe 0x5e3e0000 1
// run: 1
// expect: mcause = 1
// expect: mtval = 0x20001000
// expect: MEPCC = 0x20000ffe 0x5e3e0000 1
// lend: PCC = 0x20000ffe 0x5e000100 1
// run: 1
// expect: mcause = 28
// expect: mtval = 0x401
// expect: MEPCC = 0x20000ffe 0x5e000100 1
// A long word between two multiples of four: a no-op in the halves at 2 and 4.
// lend: word 0x20000000 = 0x00130001
// lend: word 0x20000004 = 0x00010000
// lend: PCC = 0x20000000 0x5e3e0000 1
// run: 3
// expect: retired = 3
// expect: PCC = 0x20000008 0x5e3e0000 1
// A sealed MTCC: PCC has no tag, and the next fetch traps in turn.
// lend: MTCC = handler 0x5e7e0000 1
// lend: PCC = 0x20001000 0x5e3e0000 1
// lend: mstatus = 0xffffffff
// run: 1
// expect: mstatus = 0xfffffff7
// expect: PCC = handler 0x5e7e0000 0
// run: 1
// expect: mcause = 28
// expect: mtval = 0x402
// expect: mstatus = 0xffffff77
// expect: MEPCC = handler 0x5e7e0000 0
// MRET clears MEPCC's lowest bit for PCC; MEPCC stays. MIE := MPIE, MPIE := 1.
// lend: PCC = return 0x5e3e0000 1
// lend: MEPCC = 0x20000003 0x5e3e0000 1
// lend: mstatus = 0x12340000
// run: 1
// expect: retired = 1
// expect: PCC = 0x20000002 0x5e3e0000 1
// expect: MEPCC = 0x20000003 0x5e3e0000 1
// expect: mstatus = 0x12340080
// A sealed MEPCC.
// lend: PCC = return 0x5e3e0000 1
// lend: MEPCC = 0x20000004 0x5e7e0000 1
// run: 1
// expect: retired = 1
// expect: PCC = 0x20000004 0x5e7e0000 0
// expect: mstatus = 0x12340088
// A read of MTCC clears the two low bits too; MTCC stays.
// lend: PCC = read 0x5e3e0000 1
// lend: MTCC = handler+3 0x5e3e0000 1
// run: 1
// expect: retired = 1
// expect: c5 = handler 0x5e3e0000 1
// expect: MTCC = handler+3 0x5e3e0000 1
