// Fifteen traps, each noted and passed over: misaligned, outside memory, illegal, breakpoint, ecall,
// and the checks of jumps; and two jumps between multiples of four, which are none.
//
// Document 01, "Traps": checks of the capability before those of alignment, these before access;
// misaligned is 0, 4, 6 and outside memory 5, 7, with the address; illegal is 2 with the word;
// EBREAK 3 and ECALL 11 with 0. CJALR: tag, seal, EX (17), bounds (1). A trap leaves the general
// registers alone. Document 02, 3: an illegal short word is in mtval with zeros above it.

#include "cheriot.inc"
#include "handler.inc"

    begin
    object c7, data, 64
    li    x8, 0x20001000
    csetaddr c8, c4, x8
    li    x9, 0x20000000
    csetaddr c9, c4, x9
    place x10, here
    csetaddr c10, c6, x10
    csetboundsimm c11, c10, 8
    li    x5, 5
here:
    lw    x5, 2(c7)
    sh    x5, 1(c7)
    clc   c5, 4(c7)
    csc   c5, 12(c7)
    lw    x5, 62(c7)            // out of bounds and misaligned
    lw    x5, 0(c8)             // the end of memory
    sw    x5, 0(c8)
    lb    x5, -1(c9)            // before memory
    .insn 0x00080813            // addi x16, x16, 0
    .2byte 0, 0x0001            // no short word, and C.NOP
    ebreak
    ecall
    jalr  c1, 0(c7)             // data
    jalr  c1, 8(c11)            // the end of 8 bytes of code
    place x12, between
    csetaddr c12, c6, x12
    jalr  c0, 1(c12)            // bit 0 is cleared
    .2byte 0x0001
between:
    .2byte 0x0001
branch:
    .insn 0x00000163            // beq x0, x0, 2 further: its second half is no short word
    finish

    .org  0x800
data:
    .word 0x01234567

// data is 0x20000800: T 0x40, B 0.
// run: 500
// expect: trapped = 15
// expect: word log = 4
// expect: word log+0x4 = data+2
// expect: word log+0x10 = 6
// expect: word log+0x14 = data+1
// expect: word log+0x20 = 4
// expect: word log+0x24 = data+4
// expect: word log+0x30 = 6
// expect: word log+0x34 = data+12
// c7, cause 1.
// expect: word log+0x40 = 28
// expect: word log+0x44 = 0xe1
// expect: word log+0x50 = 5
// expect: word log+0x54 = 0x20001000
// expect: word log+0x60 = 7
// expect: word log+0x64 = 0x20001000
// expect: word log+0x70 = 5
// expect: word log+0x74 = 0x1fffffff
// expect: word log+0x80 = 2
// expect: word log+0x84 = 0x00080813
// expect: word log+0x90 = 2
// expect: word log+0x94 = 0
// expect: word log+0xa0 = 3
// expect: word log+0xa4 = 0
// expect: word log+0xb0 = 11
// expect: word log+0xb4 = 0
// c7, cause 17.
// expect: word log+0xc0 = 28
// expect: word log+0xc4 = 0xf1
// c11, cause 1.
// expect: word log+0xd0 = 28
// expect: word log+0xd4 = 0x161
// expect: word log+0xe0 = 2
// expect: word log+0xe4 = 0
// expect: x1 = 0
// expect: x5 = 5
// expect: word data = 0x01234567
// expect: word data+12 = 0
// expect: MEPCC = branch+4 0x5e3e0000 1
// expect: MScratchC = log+0xf0 0x7e3e0000 1
// expect: PCC = done 0x5e3e0000 1
