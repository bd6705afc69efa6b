// The stack's high-water mark and its base, CSRs 0xBC1 and 0xBC2 (document 02, 6; the public editions of the report). A
// store from the base up to below the mark, by its lowest address and whole words, moves the mark down to that
// address with the low four bits cleared. A load, a trapped store and a store elsewhere move nothing. The pair is
// read whole; a write clears the low four bits, and by register 0 or the number 0 CSRRS, CSRRC and their like
// do not write.

#include "cheriot.inc"
#include "handler.inc"

    .equ  stack, 0x20000a00

    .macro mark
    csrr  x7, 0xbc1
    keep  c7
    .endm

    begin
    // lend: mshwm = 0x20000b05
    // lend: mshwmb = 0x20000a03
    place x5, stack
    csetaddr c8, c4, x5
    mark
    sb    x0, 0x105(c8)         // at the mark
    mark
    sb    x0, 0x104(c8)         // at mark - 1
    mark
    sw    x0, 0x100(c8)         // at the mark
    sh    x0, 0xfe(c8)
    mark
    sw    x0, 0xf4(c8)          // above it
    csc   c0, 0x88(c8)
    mark
    lw    x9, 0x40(c8)
    sb    x0, 2(c8)             // at base - 1
    mark
    sw    x0, 0x41(c8)          // misaligned
    mark
    sb    x0, 3(c8)             // at the base: the mark comes to lie below it
    mark
    sb    x0, 0x50(c8)

    li    x5, 0x20000c1f
    csrrw x7, 0xbc1, x5
    keep  c7
    csrrs x7, 0xbc1, x0
    keep  c7
    csrrc x7, 0xbc2, x0
    keep  c7
    li    x9, 0
    csrrc x7, 0xbc2, x9         // writes what it read
    keep  c7
    csrrsi x7, 0xbc2, 31
    keep  c7
    csrrci x0, 0xbc1, 0
    finish

// run: 400
// expect: trapped = 1
// expect: cap results = 0x20000b05 0 0
// expect: cap results+8 = 0x20000b05 0 0
// expect: cap results+16 = 0x20000b00 0 0
// expect: cap results+24 = 0x20000af0 0 0
// expect: cap results+32 = 0x20000a80 0 0
// expect: cap results+40 = 0x20000a80 0 0
// expect: cap results+48 = 0x20000a80 0 0
// expect: cap results+56 = 0x20000a00 0 0
// What each CSR instruction read.
// expect: cap results+64 = 0x20000a00 0 0
// expect: cap results+72 = 0x20000c10 0 0
// expect: cap results+80 = 0x20000a03 0 0
// expect: cap results+88 = 0x20000a03 0 0
// expect: cap results+96 = 0x20000a00 0 0
// expect: mshwm = 0x20000c10
// expect: mshwmb = 0x20000a10
// expect: word log = 6
// expect: word log+4 = stack+0x41
// expect: PCC = done 0x5e3e0000 1
