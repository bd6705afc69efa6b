// A buffer that overruns into a table, and a stack that grows down into it: both stop at their
// bounds, and the table between them stays.
//
// Report, 7.6: an access outside the bounds is cause 1. 7.13.5: an address below the base leaves
// the representable range, so the stack pointer loses its tag there, and the store is cause 2.

#include "cheriot.inc"
#include "handler.inc"

    begin
    object c7, buffer, 32
    li    x8, 0xaa
    li    x9, 36
fill:
    sb    x8, 0(c7)             // the last 4 of 36 are refused
    cincaddrimm c7, c7, 1
    addi  x9, x9, -1
    bnez  x9, fill

    object c10, stack, 64
    cincaddrimm c10, c10, 64
    li    x9, 9
push:
    cincaddrimm c10, c10, -8
    csc   c8, 0(c10)            // the last of 9 is refused
    addi  x9, x9, -1
    bnez  x9, push
    finish

    .org  0x800
buffer:
    .org  0x820
table:
    .word 0x11111111, 0x22222222, 0x33333333, 0x44444444
    .org  0x840
stack:
    .org  0x880
above:
    .word 0x55555555

// buffer is 0x20000800: T 0x20, B 0. stack is 0x20000840: T 0x80, B 0x40.
// run: 500
// expect: trapped = 5
// c7, cause 1, four times; then c10, cause 2.
// expect: word log = 28
// expect: word log+4 = 0xe1
// expect: word log+20 = 0xe1
// expect: word log+36 = 0xe1
// expect: word log+48 = 28
// expect: word log+52 = 0xe1
// expect: word log+64 = 28
// expect: word log+68 = 0x142
// expect: c7 = table+4 0x7e004000 1
// expect: c10 = table+24 0x7e010040 0
// expect: word buffer = 0xaaaaaaaa
// expect: word buffer+28 = 0xaaaaaaaa
// expect: word table = 0x11111111
// expect: word table+4 = 0x22222222
// expect: word table+8 = 0x33333333
// expect: word table+12 = 0x44444444
// expect: word table+16 = 0
// expect: word table+24 = 0
// expect: cap stack = 0xaa 0 0
// expect: cap stack+56 = 0xaa 0 0
// expect: word above = 0x55555555
// expect: PCC = done 0x5e3e0000 1
