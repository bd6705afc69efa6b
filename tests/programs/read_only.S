// A read-only view of a linked structure: without SD and LM the view and all that is loaded through
// it are read-only.
//
// Document 01, house: what is loaded for want of LM is narrowed to no SD and no LM; a sealed value
// keeps them (report, 7.13.1). A store without SD: cause 19.

#include "cheriot.inc"
#include "handler.inc"

    begin
    object c7, node, 16
    object c8, next, 16
    li    x5, 42
    sw    x5, 0(c8)
    li    x5, 9
    csetaddr c5, c3, x5
    cseal c5, c8, c5
    csc   c8, 0(c7)
    csc   c5, 8(c7)

    li    x5, ~(SD | LM)
    candperm c9, c7, x5         // the view
    cgetperm x10, c9
    clc   c11, 0(c9)
    lw    x12, 0(c11)
    sw    x12, 4(c11)
    sw    x12, 0(c9)
    csc   c7, 0(c9)
    clc   c13, 8(c9)            // sealed
    li    x5, ~SD
    candperm c14, c7, x5        // without SD, with LM
    clc   c1, 0(c14)
    sw    x12, 8(c1)
    finish

    .org  0x800
node:
    .org  0x810
next:
    .org  0x820

// node is 0x20000800: T 0x10, B 0. next: T 0x20, B 0x10. The rights 0x07F without SD and LM keep GL
// LG LD MC (SL has no place in that row): the code GL 1 0 1 0 LG is 0x35. Without SD alone: GL 1 0
// 1 LM LG, 0x37.
// run: 200
// expect: trapped = 3
// expect: c7 = node 0x7e002000 1
// expect: c8 = next 0x7e004010 1
// expect: c9 = node 0x6a002000 1
// expect: x10 = 0x63
// expect: c11 = next 0x6a004010 1
// expect: x12 = 42
// expect: c13 = next 0x7e404010 1
// expect: c14 = node 0x6e002000 1
// expect: c1 = next 0x7e004010 1
// c11, cause 19; c9, cause 19, twice.
// expect: word log = 28
// expect: word log+4 = 0x173
// expect: word log+16 = 28
// expect: word log+20 = 0x133
// expect: word log+32 = 28
// expect: word log+36 = 0x133
// expect: cap node = next 0x7e004010 1
// expect: word next+4 = 0
// expect: word next+8 = 42
// expect: PCC = done 0x5e3e0000 1
