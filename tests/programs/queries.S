// What the instructions that ask and compare answer, at the ends of their ranges.
//
// Report, CGetLen and CGetTop: at most 2^32 - 1; a length is a number of 33 bits. CSetBoundsImm:
// the 12 bits are unsigned. CSetHigh gives no tag. CTestSubset: tags alike, bounds and rights
// within. CSetEqualExact: every bit.

#include "cheriot.inc"
#include "handler.inc"

    .macro ask name, operands:vararg
    \name \operands
    keep  c7
    .endm

    begin
    ask   cgetbase, x7, c4
    ask   cgettop, x7, c4
    ask   cgetlen, x7, c4
    ask   cgettype, x7, c4
    ask   cgettag, x7, c4
    ask   cgethigh, x7, c4
    li    x5, 0x20000000
    csetaddr c8, c4, x5
    ask   csetboundsimm, c7, c8, 4095
    ask   csetboundsimm, c7, c8, 2048
    ask   csetboundsimm, c7, c8, 511
    // High below low, which only a word without a tag can have: E 15, T 0x10, B 0x80.
    li    x5, 0x90000000
    li    x6, 0x003c2080
    ask   csethigh, c7, x5, x6
    cmove c9, c7
    ask   cgetbase, x7, c9
    ask   cgettop, x7, c9
    ask   cgetlen, x7, c9
    li    x6, 0x7e3e0000
    ask   csethigh, c7, c4, x6

    li    x5, ~SD
    candperm c10, c4, x5
    ccleartag c11, c4
    ask   ctestsubset, x7, c4, c10
    ask   ctestsubset, x7, c10, c4
    ask   ctestsubset, x7, c4, c11
    ask   ctestsubset, x7, c11, c11
    ask   ctestsubset, x7, c8, c4
    csetboundsimm c12, c8, 64
    ask   ctestsubset, x7, c4, c12
    ask   ctestsubset, x7, c12, c4
    ask   csetequalexact, x7, c4, c4
    ask   csetequalexact, x7, c4, c11
    ask   csetequalexact, x7, c4, c8
    li    x6, 0xfe3e0000
    csethigh c13, c4, x6        // as c11, and the reserved bit
    ask   csetequalexact, x7, c13, c11
    ask   cmove, c7, c13
    ask   csub, x7, c12, c4
    ask   cgetaddr, x7, c12
    finish

// run: 500
// expect: trapped = 0
// The root: base 0; top and length 2^32, given as 2^32 - 1.
// expect: cap results = 0 0 0
// expect: cap results+8 = 0xffffffff 0 0
// expect: cap results+16 = 0xffffffff 0 0
// expect: cap results+24 = 0 0 0
// expect: cap results+32 = 1 0 0
// expect: cap results+40 = 0x7e3e0000 0 0
// 4095 needs E 4: T 0x100. 2048 needs E 3: T 0x100. 511: E 0, T 0x1FF.
// expect: cap results+48 = 0x20000000 0x7e120000 1
// expect: cap results+56 = 0x20000000 0x7e0e0000 1
// expect: cap results+64 = 0x20000000 0x7e03fe00 1
// low 0x80 * 2^24; T < B, so high is 2^33 + 0x10 * 2^24 modulo 2^33; the length
// 0x10000000 - 0x80000000 modulo 2^33 is above 2^32 - 1.
// expect: cap results+72 = 0x90000000 0x003c2080 0
// expect: cap results+80 = 0x80000000 0 0
// expect: cap results+88 = 0x10000000 0 0
// expect: cap results+96 = 0xffffffff 0 0
// expect: cap results+104 = 0 0x7e3e0000 0
// Subsets: fewer rights, more rights, no tag, neither tagged, all the same but the address.
// expect: cap results+112 = 1 0 0
// expect: cap results+120 = 0 0 0
// expect: cap results+128 = 0 0 0
// expect: cap results+136 = 1 0 0
// expect: cap results+144 = 1 0 0
// expect: cap results+152 = 1 0 0
// expect: cap results+160 = 0 0 0
// expect: cap results+168 = 1 0 0
// expect: cap results+176 = 0 0 0
// expect: cap results+184 = 0 0 0
// expect: cap results+192 = 0 0 0
// expect: cap results+200 = 0 0xfe3e0000 0
// expect: cap results+208 = 0x20000000 0 0
// expect: cap results+216 = 0x20000000 0 0
// expect: PCC = done 0x5e3e0000 1
