// Loads: the order of their checks, what CLC makes of a value by the authority's rights, and the
// signs of bytes and halves.
//
// Document 01, house: tag, seal, LD, bounds, alignment in that order; then access. A tagged value
// loses GL and LG for want of LG, SD and LM for want of LM, its tag for want of MC; then comes
// revocation, which spares SE, US and U0 (document 02, 4). An untagged value stays as it is.

#include "cheriot.inc"
#include "handler.inc"

    begin
    object c7, cells, 64
    object c8, next, 16
    csc   c8, 0(c7)
    ccleartag c5, c8
    csc   c5, 8(c7)
    place x5, token
    csetaddr c9, c3, x5
    csetboundsimm c9, c9, 8
    csc   c9, 16(c7)            // U0, SE and US
    li    x5, GL | U0
    candperm c9, c9, x5
    csc   c9, 24(c7)            // U0 alone
    li    x5, GL
    candperm c9, c9, x5
    csc   c9, 32(c7)            // none of them

    // Without MC: the losses come first.
    li    x5, ~MC
    candperm c10, c7, x5
    clc   c11, 0(c10)
    keep  c11
    // Without LG and LM, of a value that has no tag.
    li    x5, ~(LG | LM)
    candperm c10, c7, x5
    clc   c11, 8(c10)
    keep  c11
    clc   c11, 0(c10)
    keep  c11
    // token is revoked.
    clc   c11, 16(c7)
    keep  c11
    clc   c11, 24(c7)
    keep  c11
    clc   c11, 32(c7)
    keep  c11

    object c12, data, 16
    lb    x13, 0(c12)
    keep  c13
    lbu   x13, 0(c12)
    keep  c13
    lh    x13, 2(c12)
    keep  c13
    lhu   x13, 2(c12)
    keep  c13
    lw    x13, 0(c12)
    keep  c13

    // Refused: no tag, though it is sealed and lacks LD; sealed, though it lacks LD; no LD, though
    // it is out of bounds; out of bounds, though it is misaligned; misaligned, though it is
    // outside.
    li    x5, SD
    candperm c13, c12, x5
    li    x5, 9
    csetaddr c5, c3, x5
    cseal c14, c13, c5
    ccleartag c15, c14
    lw    x1, 0(c15)
    lw    x1, 0(c14)
    lw    x1, 16(c13)
    lw    x1, 13(c12)
    li    x5, 0x20001001
    csetaddr c5, c4, x5
    lh    x1, 0(c5)
    lb    x1, 0(c5)
    finish

    .org  0x800
cells:
    .org  0x840
next:
    .org  0x880
data:
    .word 0x80017f80
    .org  0x8c0
token:

// revoke: token token+8
// next is 0x20000840: T 0x50, B 0x40: 0x7E00A040. token is 0x200008C0: T 0xC8, B 0xC0.
// run: 500
// Without GL and LG the code is 0 1 1 SL LM 0; without SD and LM then 0 1 0 1 0 0, 0x14.
// expect: cap results = next 0x2800a040 0
// expect: cap results+8 = next 0x7e00a040 0
// expect: cap results+16 = next 0x2800a040 1
// Code 0x27, then GL 0 0 U0 0 0, 0x24, then GL alone, 0x20.
// expect: cap results+24 = token 0x4e0190c0 1
// expect: cap results+32 = token 0x480190c0 1
// expect: cap results+40 = token 0x400190c0 0
// expect: cap results+48 = 0xffffff80 0 0
// expect: cap results+56 = 0x80 0 0
// expect: cap results+64 = 0xffff8001 0 0
// expect: cap results+72 = 0x8001 0 0
// expect: cap results+80 = 0x80017f80 0 0
// expect: trapped = 6
// c15, cause 2; c14, cause 3; c13, cause 18; c12, cause 1; misaligned; outside.
// expect: word log = 28
// expect: word log+0x4 = 0x1e2
// expect: word log+0x14 = 0x1c3
// expect: word log+0x24 = 0x1b2
// expect: word log+0x34 = 0x181
// expect: word log+0x40 = 4
// expect: word log+0x44 = 0x20001001
// expect: word log+0x50 = 5
// expect: word log+0x54 = 0x20001001
// expect: x1 = 0
// expect: PCC = done 0x5e3e0000 1
