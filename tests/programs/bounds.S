// The cuts and moves of document 01, "Cases", by CSetBounds and its exact form, and the two
// instructions that tell a length's rounding.
//
// Document 01, "Cutting bounds": the least exponent for which the rounded ends are at most 511 *
// 2^e apart; the exact form loses the tag if rounding changed anything.

#include "cheriot.inc"
#include "handler.inc"

    .macro cut address, length
    li    x5, \address
    csetaddr c7, c4, x5
    li    x6, \length
    csetbounds c8, c7, x6
    keep  c8
    csetboundsexact c9, c7, x6
    keep  c9
    .endm

    begin
    cut   0x20000001, 511
    cmove c10, c8
    cut   0x20000001, 512
    cut   0x20000001, 1021
    cut   0x20000001, 1022
    cgetbase x11, c8
    cgettop x12, c8
    cgetlen x13, c8
    cut   0x20000000, 8372224
    cut   0x20000000, 8372225
    cut   0x20000000, 0

    // Moves of the first cut, then a cut of it that asks for more than it has.
    li    x5, 0x20000200
    csetaddr c14, c10, x5
    keep  c14
    li    x5, 0x20000201
    csetaddr c14, c10, x5
    keep  c14
    li    x5, 0x20000000
    csetaddr c14, c10, x5
    keep  c14
    li    x5, 512
    csetbounds c14, c10, x5
    keep  c14

    li    x5, 1023
    crrl  x14, x5
    cram  x15, x5
    li    x5, -1
    crrl  x1, x5
    cram  x5, x5
    finish

// Metadata is 0x7E000000 + E * 2^18 + T * 2^9 + B, of the memory root's code 0x3F.
// run: 400
// expect: trapped = 0
// [0x20000001, 0x20000200): E 0, T 0, B 1; exact.
// expect: cap results = 0x20000001 0x7e000001 1
// expect: cap results+8 = 0x20000001 0x7e000001 1
// [0x20000000, 0x20000202): E 1, T 0x101, B 0; not exact.
// expect: cap results+16 = 0x20000001 0x7e060200 1
// expect: cap results+24 = 0x20000001 0x7e060200 0
// [0x20000000, 0x200003FE): E 1, T 0x1FF, B 0.
// expect: cap results+32 = 0x20000001 0x7e07fe00 1
// expect: cap results+40 = 0x20000001 0x7e07fe00 0
// [0x20000000, 0x20000400): E 2, T 0x100, B 0.
// expect: cap results+48 = 0x20000001 0x7e0a0000 1
// expect: cap results+56 = 0x20000001 0x7e0a0000 0
// expect: x11 = 0x20000000
// expect: x12 = 0x20000400
// expect: x13 = 0x400
// 511 * 2^14 bytes: E 14, T 0x1FF, B 0; exact.
// expect: cap results+64 = 0x20000000 0x7e3bfe00 1
// expect: cap results+72 = 0x20000000 0x7e3bfe00 1
// [0x20000000, 0x21000000): E 15 for the exponent 24, T 0x21, B 0x20.
// expect: cap results+80 = 0x20000000 0x7e3c4220 1
// expect: cap results+88 = 0x20000000 0x7e3c4220 0
// Empty: E, T and B 0; exact.
// expect: cap results+96 = 0x20000000 0x7e000000 1
// expect: cap results+104 = 0x20000000 0x7e000000 1
// Moves: to the end, past it, before the base.
// expect: cap results+112 = 0x20000200 0x7e000001 1
// expect: cap results+120 = 0x20000201 0x7e000001 0
// expect: cap results+128 = 0x20000000 0x7e000001 0
// expect: cap results+136 = 0x20000001 0x7e060200 0
// 1023 needs E 2: 1024. 2^32 - 1 needs the exponent 24: 2^32, which is given as 0.
// expect: x14 = 1024
// expect: x15 = 0xfffffffc
// expect: x1 = 0
// expect: x5 = 0xff000000
// expect: PCC = done 0x5e3e0000 1
