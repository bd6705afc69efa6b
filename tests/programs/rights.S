// Narrowing, by CAndPerm and CGetPerm: the first row that fits, and what has no place in it is
// dropped (document 01, "Capability word"; report, 7.13.1 and Figure 7.4).
//
// The rights of the roots: memory 0x07F, executable 0x1EB, sealing 0xE01.

#include "cheriot.inc"
#include "handler.inc"

    .macro narrow cs, mask
    li    x5, \mask
    candperm c7, \cs, x5
    cgetperm x7, c7
    sw    x7, 0(c2)
    cincaddrimm c2, c2, 4
    .endm

    begin
    narrow c4, -1
    narrow c4, ~SD
    narrow c4, ~LD
    narrow c4, ~MC
    narrow c4, ~(MC | SD)
    narrow c4, ~(MC | LD)
    narrow c4, ~(MC | LD | SD)
    narrow c4, ~SL
    narrow c4, ~(LM | LG)
    narrow c4, ~GL
    narrow c6, -1
    narrow c6, ~SR
    narrow c6, ~EX
    narrow c6, ~LD
    narrow c6, ~MC
    narrow c6, ~(GL | LG | LM | SR)
    narrow c3, -1
    narrow c3, ~U0
    narrow c3, ~SE
    narrow c3, ~US
    narrow c3, ~GL
    narrow c3, LD | SD | MC | EX

    // The write-only row has MC: a capability is stored, nothing is loaded.
    object c8, cell, 8
    li    x5, ~LD
    candperm c8, c8, x5
    csc   c4, 0(c8)
    clc   c9, 0(c8)
    finish

    .org  0x800
cell:
    .org  0x808

// run: 500
// Memory: GL LD MC SD SL LM LG; then the read-only row, which has no SL.
// expect: word results = 0x07f
// expect: word results+4 = 0x06b
// The write-only row: GL SD MC.
// expect: word results+8 = 0x045
// The data rows: GL and LD, SD.
// expect: word results+12 = 0x025
// expect: word results+16 = 0x021
// expect: word results+20 = 0x005
// expect: word results+24 = 0x001
// expect: word results+28 = 0x06f
// expect: word results+32 = 0x075
// expect: word results+36 = 0x07e
// Executable: GL EX LD MC SR LM LG; without EX the read-only row; without LD the last; without MC
// the data row.
// expect: word results+40 = 0x1eb
// expect: word results+44 = 0x16b
// expect: word results+48 = 0x06b
// expect: word results+52 = 0x001
// expect: word results+56 = 0x021
// expect: word results+60 = 0x160
// Sealing: GL U0 SE US.
// expect: word results+64 = 0xe01
// expect: word results+68 = 0x601
// expect: word results+72 = 0xa01
// expect: word results+76 = 0xc01
// expect: word results+80 = 0xe00
// expect: word results+84 = 0
// The code GL 1 0 0 0 0 is 0x30; cell is 0x20000800: T 8, B 0.
// expect: c8 = cell 0x60001000 1
// expect: cap cell = 0 0x7e3e0000 1
// c8, cause 18.
// expect: trapped = 1
// expect: word log = 28
// expect: word log+4 = 0x112
// expect: c9 = 0 0 0
// expect: PCC = done 0x5e3e0000 1
