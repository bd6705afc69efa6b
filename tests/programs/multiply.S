// Multiply and divide: both words of a product by each reading of the signs, quotients towards zero
// with their remainders, division by zero, the one overflow; capabilities as operands; words close
// by that are none.
//
// Document 02, 1: RISC-V's M extension, funct7 1 of OP. Of the standard: MULHSU reads its first
// operand with a sign; by zero the quotient is all ones and the remainder the dividend; the most
// negative by -1 is itself with remainder 0. Report, 7.3: an integer result is a NULL capability with
// that address.

#include "cheriot.inc"
#include "handler.inc"

    .macro one_of name
    \name x9, x7, x8
    sw    x9, 0(c2)
    cincaddrimm c2, c2, 4
    .endm
    .macro all first, second
    li    x7, \first
    li    x8, \second
    .irp  name, mul, mulh, mulhsu, mulhu, div, rem, divu, remu
    one_of \name
    .endr
    .endm

    begin
    all   -7, 3
    all   3, -7
    all   0x80000000, -1
    all   -7, 0
    all   0x80000000, 0x80000000
    all   -1, -1
    object c10, table, 8
    mul   x11, x10, x10         // of two tagged capabilities: an integer
    mul   x10, x10, x8          // over a tagged one
    div   x0, x7, x8
other_register:
    .insn 0x02c80533            // mul with rs1 16
other_opcode:
    .insn 0x02159513            // funct7 1 with the opcode of slli
    finish

    .org  0x800
table:

// run: 500
// expect: trapped = 2
// -21 and 3 * 2^32 - 21; -7 = 3 * -2 - 1 and 2^32 - 7 = 3 * 0x55555553.
// expect: word results = 0xffffffeb
// expect: word results+4 = 0xffffffff
// expect: word results+8 = 0xffffffff
// expect: word results+12 = 2
// expect: word results+16 = 0xfffffffe
// expect: word results+20 = 0xffffffff
// expect: word results+24 = 0x55555553
// expect: word results+28 = 0
// 3 with its sign, -7 without: 3 * 2^32 - 21.
// expect: word results+32 = 0xffffffeb
// expect: word results+36 = 0xffffffff
// expect: word results+40 = 2
// expect: word results+44 = 2
// expect: word results+48 = 0
// expect: word results+52 = 3
// expect: word results+56 = 0
// expect: word results+60 = 3
// 2^31; 2^31 - 2^63; 2^63 - 2^31. The overflow.
// expect: word results+64 = 0x80000000
// expect: word results+68 = 0
// expect: word results+72 = 0x80000000
// expect: word results+76 = 0x7fffffff
// expect: word results+80 = 0x80000000
// expect: word results+84 = 0
// expect: word results+88 = 0
// expect: word results+92 = 0x80000000
// By zero.
// expect: word results+96 = 0
// expect: word results+100 = 0
// expect: word results+104 = 0
// expect: word results+108 = 0
// expect: word results+112 = 0xffffffff
// expect: word results+116 = 0xfffffff9
// expect: word results+120 = 0xffffffff
// expect: word results+124 = 0xfffffff9
// 2^62 and -2^62.
// expect: word results+128 = 0
// expect: word results+132 = 0x40000000
// expect: word results+136 = 0xc0000000
// expect: word results+140 = 0x40000000
// expect: word results+144 = 1
// expect: word results+148 = 0
// expect: word results+152 = 1
// expect: word results+156 = 0
// 1; 1 - 2^32; 2^64 - 2^33 + 1.
// expect: word results+160 = 1
// expect: word results+164 = 0
// expect: word results+168 = 0xffffffff
// expect: word results+172 = 0xfffffffe
// expect: word results+176 = 1
// expect: word results+180 = 0
// expect: word results+184 = 1
// expect: word results+188 = 0
// table is 0x20000800: its square is 2^58 + 2^41 + 2^22, and minus it 0xdffff800.
// expect: x11 = 0x400000
// expect: x10 = 0xdffff800
// expect: x0 = 0
// expect: word log = 2
// expect: word log+4 = 0x02c80533
// expect: word log+16 = 2
// expect: word log+20 = 0x02159513
// expect: PCC = done 0x5e3e0000 1
