// Stores: the order of their checks, and what a capability needs to be stored.
//
// Report, CSC: tag, seal, SD (19), MC for a tagged value (21), SL for a tagged value without GL
// (22), bounds, alignment; then access. Document 01: capability checks come before alignment.

#include "cheriot.inc"
#include "handler.inc"

    begin
    object c7, cells, 64
    li    x5, ~(MC | SL)
    candperm c8, c7, x5         // LD and SD, no capabilities
    li    x5, ~GL
    candperm c9, c7, x5         // a local value
    ccleartag c10, c9
    li    x5, ~SD
    candperm c11, c7, x5
    li    x13, -1

    csc   c7, 0(c8)             // 21
    csc   c9, 0(c8)             // 21 before 22
    csc   c7, 64(c8)            // 21 before 1
    csc   c7, 64(c11)           // 19 before 1
    csc   c10, 8(c8)            // no tag: allowed
    li    x5, ~SL
    candperm c12, c7, x5
    csc   c9, 60(c12)           // 22 before 1 and before alignment
    csc   c7, 60(c12)           // 1 before alignment
    csc   c7, 20(c12)           // misaligned
    csc   c7, 24(c12)           // allowed
    sw    x13, 62(c7)           // 1 before alignment
    sh    x13, 63(c7)
    sb    x13, 64(c7)
    sb    x13, 63(c7)           // allowed, as the next two
    sh    x13, 60(c7)
    sw    x13, 56(c7)
    li    x5, 0x20001002
    csetaddr c14, c4, x5
    sw    x13, 0(c14)           // misaligned before outside
    sh    x13, 0(c14)
    finish

    .org  0x800
cells:
    .org  0x840
after:
    .word 0x77777777

// cells is 0x20000800: T 0x40, B 0. The data row GL 1 0 0 LD SD is 0x33; without GL 0x1F.
// run: 440
// expect: trapped = 12
// expect: c8 = cells 0x66008000 1
// expect: c9 = cells 0x3e008000 1
// c8, cause 21, three times; c11, cause 19.
// expect: word log = 28
// expect: word log+0x4 = 0x115
// expect: word log+0x14 = 0x115
// expect: word log+0x24 = 0x115
// expect: word log+0x34 = 0x173
// c12, causes 22 and 1; then misaligned.
// expect: word log+0x44 = 0x196
// expect: word log+0x54 = 0x181
// expect: word log+0x60 = 6
// expect: word log+0x64 = cells+20
// c7, cause 1, three times.
// expect: word log+0x70 = 28
// expect: word log+0x74 = 0xe1
// expect: word log+0x84 = 0xe1
// expect: word log+0x94 = 0xe1
// expect: word log+0xa0 = 6
// expect: word log+0xa4 = 0x20001002
// expect: word log+0xb0 = 7
// expect: word log+0xb4 = 0x20001002
// expect: cap cells = 0 0 0
// expect: cap cells+8 = cells 0x3e008000 0
// expect: cap cells+24 = cells 0x7e008000 1
// expect: word cells+56 = 0xffffffff
// expect: word cells+60 = 0xff00ffff
// expect: word after = 0x77777777
// expect: PCC = done 0x5e3e0000 1
