// Short words as a compiler would use them around a call, and those that are none.
//
// Document 02, 3: each is its long form with the next address, also as link, two bytes on; an illegal one is
// in mtval with zeros above it. Report, 7.14: C.ADDI16SP and C.ADDI4SPN are CIncAddr, C.LD, C.SD, C.LDSP
// and C.SDSP move capabilities. Where it is silent the standard's form decides: C.MV and C.ADDI are ADD
// and ADDI, and leave integers. Each immediate's bits are where RV64's tables have them.

#include "cheriot.inc"
#include "handler.inc"

    .option rvc
    .macro csdsp number, offset
    .2byte 0xe002 | (\offset >> 3 & 7) << 10 | (\offset >> 6 & 7) << 7 | \number << 2
    .endm
    .macro cldsp number, offset
    .2byte 0x6002 | (\offset >> 5 & 1) << 12 | \number << 7 | (\offset >> 3 & 3) << 5 | (\offset >> 6 & 7) << 2
    .endm
    .macro csd number, offset, base
    .2byte 0xe000 | (\offset >> 3 & 7) << 10 | (\base - 8) << 7 | (\offset >> 6 & 3) << 5 | (\number - 8) << 2
    .endm
    .macro cld number, offset, base
    .2byte 0x6000 | (\offset >> 3 & 7) << 10 | (\base - 8) << 7 | (\offset >> 6 & 3) << 5 | (\number - 8) << 2
    .endm

    begin
    object c8, stack, 256
    cincaddrimm c2, c8, 64
    c.li  x12, -1
    c.jal function
back:
    c.ebreak
    c.jr  x10                   // an integer
    .2byte 0x8002               // c.jr x0
    .2byte 0x6101               // c.addi16sp x2, 0
    .2byte 0x8846               // c.mv x16, x17
    .2byte 0x4002               // c.lwsp x0, 0(x2)
    c.beqz x12, back            // not taken
    c.bnez x12, on
    ebreak
on:
    c.mv  x13, x2
    c.addi x2, 31
    finish

function:
    c.addi16sp x2, -32
    csdsp 1, 8
    csdsp 8, 0
    c.addi4spn x9, x2, 16
    c.mv  x10, x9
    csd   9, 72, 9
    cld   11, 72, 9
    cldsp 3, 88                 // the same granule: 16 + 72
    c.sw  x12, 0(x9)
    c.lw  x15, 0(x9)
    c.srli x15, 28
    c.slli x15, 1
    cldsp 1, 8
    c.addi16sp x2, 32
    c.jr  x1

    .org  0x800
stack:

// stack is 0x20000800, 256 bytes: T 0x100, B 0. In the function c2 is 32 on.
// run: 300
// expect: trapped = 6
// expect: c8 = stack 0x7e020000 1
// expect: c9 = stack+48 0x7e020000 1
// expect: x10 = stack+48
// expect: c11 = stack+48 0x7e020000 1
// expect: c3 = stack+48 0x7e020000 1
// expect: x12 = 0xffffffff
// expect: x15 = 0x1e
// expect: cap stack+32 = stack 0x7e020000 1
// expect: cap stack+40 = back 0x5ebe0000 1
// expect: cap stack+120 = stack+48 0x7e020000 1
// expect: word stack+48 = 0xffffffff
// The link of C.JAL, a sentry of type 2 (MIE is 0), loaded again.
// expect: c1 = back 0x5ebe0000 1
// expect: x13 = stack+64
// expect: x2 = stack+95
// expect: word log = 3
// expect: word log+0x4 = 0
// c10, cause 2.
// expect: word log+0x10 = 28
// expect: word log+0x14 = 0x142
// expect: word log+0x20 = 2
// expect: word log+0x24 = 0x8002
// expect: word log+0x30 = 2
// expect: word log+0x34 = 0x6101
// expect: word log+0x40 = 2
// expect: word log+0x44 = 0x8846
// expect: word log+0x50 = 2
// expect: word log+0x54 = 0x4002
// expect: PCC = done 0x5e3e0000 1
