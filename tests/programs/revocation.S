// A heap with revocation: after an object is freed, and its revocation bits are set, a stale
// capability to it dies when it is loaded.
//
// Document 01, house: revoked is what has none of SE, US and U0 (document 02, 4) and a low bound in a
// granule whose bit is set; the tag in memory stays, and so does what is in a register.

#include "cheriot.inc"
#include "handler.inc"

    begin
    object c7, freed, 64
    object c8, other, 64
    cincaddrimm c9, c7, 32      // into the middle of the object
    place x10, freed
    csetaddr c10, c3, x10       // a sealing capability that begins at the same number
    csetboundsimm c10, c10, 8
    li    x5, GL | U0
    candperm c14, c10, x5
    csetboundsimm c14, c14, 1   // a token of one byte there
    object c11, before, 128     // begins before the object and reaches into it
    cincaddrimm c11, c11, 0x50
    li    x5, 77
    sw    x5, 0(c7)
    csc   c7, 0(c2)
    csc   c9, 8(c2)
    csc   c8, 16(c2)
    csc   c10, 24(c2)
    csc   c11, 32(c2)
    csc   c14, 48(c2)
    clc   c12, 0(c2)            // before it is freed
wait:
    beqz  x15, wait

    clc   c13, 0(c2)
    clc   c9, 8(c2)
    clc   c8, 16(c2)
    clc   c10, 24(c2)
    clc   c11, 32(c2)
    clc   c12, 48(c2)
    lw    x1, 0(c13)
    lw    x14, 0(c7)
    csc   c13, 40(c2)           // stored again, it has no tag to lose
    finish

    .org  0x7c0
before:
    .org  0x800
freed:
    .org  0x840
other:

// freed is 0x20000800: T 0x40, B 0. other is 0x20000840: T 0x80, B 0x40. before is 0x200007C0: T
// 0x40, B 0x1C0. The sealing capability: T 8, B 0. The token, code 0x24: T 1, B 0.
// run: 60
// expect: trapped = 0
// expect: PCC = wait 0x5e3e0000 1
// expect: c12 = freed 0x7e008000 1
// expect: cap results = freed 0x7e008000 1
// revoke: freed other
// lend: x15 = 1
// run: 60
// expect: trapped = 1
// expect: c13 = freed 0x7e008000 0
// expect: c9 = freed+0x20 0x7e008000 0
// expect: c8 = other 0x7e010040 1
// expect: c10 = freed 0x4e001000 1
// expect: c12 = freed 0x48000200 1
// Its address is in the freed object, its low bound is not.
// expect: c11 = freed+0x10 0x7e0081c0 1
// c13, cause 2.
// expect: word log = 28
// expect: word log+4 = 0x1a2
// expect: x1 = 0
// expect: x14 = 77
// expect: c7 = freed 0x7e008000 1
// expect: cap results = freed 0x7e008000 1
// expect: cap results+8 = freed+0x20 0x7e008000 1
// expect: cap results+40 = freed 0x7e008000 0
// expect: PCC = done 0x5e3e0000 1
