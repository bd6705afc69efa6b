// The CSRs and the special capability registers.
//
// Document 01: of mstatus MIE (bit 3) and MPIE (bit 7) can be written, all of it is read; mcause and
// mtval take every word. MTCC and MEPCC are written and read by a move to the address without its
// two low bits and without its lowest (document 02, 3), of an aligned one too. MTDC and MScratchC hold
// anything.

#include "cheriot.inc"
#include "handler.inc"

    .macro csr name, operands:vararg
    \name \operands
    keep  c7
    .endm

    begin
    // lend: mstatus = 0x12340000
    // lend: MEPCC = 0x20000007 0x5e3e0000 1
    li    x5, -1
    csr   csrrw, x7, mstatus, x5
    csr   csrrw, x7, mstatus, x0
    csr   csrrsi, x7, mstatus, 8
    csr   csrrci, x7, mstatus, 31
    li    x5, 0xdeadbeef
    csr   csrrw, x7, mcause, x5
    li    x5, 0xff
    csr   csrrc, x7, mcause, x5
    li    x5, 0x11
    csr   csrrs, x7, mcause, x5
    csr   csrrs, x7, mcause, x0
    csr   csrrwi, x7, mtval, 31
    csr   csrrci, x7, mtval, 1
    csr   csrr, x7, mtval

    cspecialr c8, MEPCC
    auipcc c9, 0
here:
    cincaddrimm c9, c9, 3
    cspecialrw c0, MEPCC, c9
    cspecialr c10, MTCC
    li    x5, 1
    csetaddr c11, c3, x5
    cseal c11, c6, c11          // a sentry, aligned
    cspecialrw c12, MTCC, c11
    cspecialrw c13, MTCC, c10
    cincaddrimm c14, c4, 5
    cspecialrw c15, MTDC, c14
    cspecialrw c1, MTDC, c11
    finish

// run: 400
// expect: trapped = 0
// The values before each write.
// expect: cap results = 0x12340000 0 0
// expect: cap results+8 = 0x12340088 0 0
// expect: cap results+16 = 0x12340000 0 0
// expect: cap results+24 = 0x12340008 0 0
// expect: mstatus = 0x12340000
// expect: cap results+32 = 0 0 0
// expect: cap results+40 = 0xdeadbeef 0 0
// expect: cap results+48 = 0xdeadbe00 0 0
// expect: cap results+56 = 0xdeadbe11 0 0
// expect: mcause = 0xdeadbe11
// expect: cap results+64 = 0 0 0
// expect: cap results+72 = 31 0 0
// expect: cap results+80 = 30 0 0
// expect: mtval = 30
// Read, then written, with one bit too many.
// expect: c8 = 0x20000006 0x5e3e0000 1
// expect: c9 = here+0xffffffff 0x5e3e0000 1
// expect: MEPCC = here+0xfffffffe 0x5e3e0000 1
// A sealed value loses its tag in MTCC, not in MTDC.
// expect: c10 = skip 0x5e3e0000 1
// expect: c11 = 0x20000018 0x5e7e0000 1
// expect: c12 = skip 0x5e3e0000 1
// expect: c13 = 0x20000018 0x5e7e0000 0
// expect: MTCC = skip 0x5e3e0000 1
// expect: c15 = 0 0x7e3e0000 1
// expect: c1 = 5 0x7e3e0000 1
// expect: MTDC = 0x20000018 0x5e7e0000 1
// expect: PCC = done 0x5e3e0000 1
