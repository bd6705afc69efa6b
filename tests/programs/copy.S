// A copy by capabilities keeps tags and every bit of what is no capability; a copy by words loses
// the tags. A byte stored into a capability clears the tag of its granule alone.
//
// Report, 7.7: tags move by CLC and CSC; other stores clear the tag of the granule that they touch.
// Figure 7.2: the reserved bit of untagged data is preserved.

#include "cheriot.inc"
#include "handler.inc"

    begin
    object c7, source, 32
    object c8, kept, 32
    object c9, lost, 32
    csc   c7, 0(c7)
    csc   c8, 8(c7)
    ccleartag c5, c9
    csc   c5, 16(c7)

    cmove c11, c7
    cmove c12, c8
    li    x10, 4
by_capability:
    clc   c13, 0(c11)
    csc   c13, 0(c12)
    cincaddrimm c11, c11, 8
    cincaddrimm c12, c12, 8
    addi  x10, x10, -1
    bnez  x10, by_capability

    cmove c11, c7
    cmove c12, c9
    li    x10, 8
by_word:
    lw    x13, 0(c11)
    sw    x13, 0(c12)
    cincaddrimm c11, c11, 4
    cincaddrimm c12, c12, 4
    addi  x10, x10, -1
    bnez  x10, by_word

    clc   c14, 0(c8)            // usable: a load through the copy
    lw    x14, 28(c14)
    sb    x0, 11(c8)            // into the second capability's address
    clc   c15, 8(c8)
    lw    x1, 0(c15)
    lw    x1, 0(c12)            // past the end, and no number of its own
    finish

    .org  0x800
source:
    .skip 24
    .word 0x12345678, 0xfedcba98
    .org  0x840
kept:
    .org  0x880
lost:
    .org  0x8a0

// source is 0x20000800: T 0x20, B 0. kept: T 0x60, B 0x40. lost: T 0xA0, B 0x80.
// run: 300
// expect: trapped = 2
// expect: cap source = source 0x7e004000 1
// expect: cap source+8 = kept 0x7e00c040 1
// expect: cap source+16 = lost 0x7e014080 0
// expect: cap kept = source 0x7e004000 1
// expect: cap kept+16 = lost 0x7e014080 0
// expect: cap kept+24 = 0x12345678 0xfedcba98 0
// expect: cap lost = source 0x7e004000 0
// expect: cap lost+8 = kept 0x7e00c040 0
// expect: cap lost+16 = lost 0x7e014080 0
// expect: cap lost+24 = 0x12345678 0xfedcba98 0
// expect: c13 = 0xfedcba98 0 0
// expect: c14 = 0xfedcba98 0 0
// The byte that is 0x20 in 0x20000840.
// expect: cap kept+8 = 0x840 0x7e00c040 0
// expect: c15 = 0x840 0x7e00c040 0
// expect: c12 = lost+32 0x7e014080 1
// c15, cause 2; c12, cause 1.
// expect: word log = 28
// expect: word log+4 = 0x1e2
// expect: word log+16 = 28
// expect: word log+20 = 0x181
// expect: x1 = 0
// expect: PCC = done 0x5e3e0000 1
