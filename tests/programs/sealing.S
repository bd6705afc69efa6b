// Sealing and unsealing: the round trip, what a sealed capability refuses, and what CSeal and
// CUnseal refuse by clearing the tag.
//
// Report, 7.13.2: with EX the types 1, 2, 3, 6 and 7, without it 9 to 15 (stored as 1 to 7).
// CSeal writes the low three bits of the type whatever happens; CUnseal writes 0, and GL stays only
// if the authority has it. A refusal clears the tag and does not trap.

#include "cheriot.inc"
#include "handler.inc"

    // cd := the sealing root at an address.
    .macro authority cd, type
    li    \cd, \type
    csetaddr \cd, c3, \cd
    .endm

    begin
    object c7, data, 64
    authority c8, 9
    csetboundsimm c8, c8, 1
    cseal c9, c7, c8            // sealed with 9
    cgettype x10, c9
    cunseal c11, c9, c8         // and back
    csetequalexact x12, c11, c7
    lw    x5, 0(c9)
    sw    x5, 0(c9)
    csc   c7, 0(c9)
    clc   c5, 0(c9)

    // A sealed capability loses its tag by a change, not by a copy.
    cincaddrimm c13, c9, 0
    keep  c13
    li    x5, -1
    candperm c13, c9, x5
    keep  c13
    csetboundsimm c13, c9, 8
    keep  c13
    cmove c13, c9
    keep  c13

    // Refused seals: type 8; a sentry's type for data; a data type for code; a reserved type; one
    // that is sealed already; an authority without SE; an address at the end of its bounds; no tag.
    authority c14, 8
    cseal c13, c7, c14
    keep  c13
    authority c14, 3
    cseal c13, c7, c14
    keep  c13
    authority c14, 9
    cseal c13, c6, c14
    keep  c13
    authority c14, 4
    cseal c13, c6, c14
    keep  c13
    authority c14, 10
    cseal c13, c9, c14
    keep  c13
    li    x5, ~SE
    candperm c14, c8, x5
    cseal c13, c7, c14
    keep  c13
    cincaddrimm c14, c8, 1
    cseal c13, c7, c14
    keep  c13
    ccleartag c14, c8
    cseal c13, c7, c14
    keep  c13

    // Type 16, which is more than four bits; an authority that is sealed itself.
    authority c14, 16
    cseal c13, c7, c14
    keep  c13
    authority c14, 10
    authority c13, 9
    cseal c14, c13, c14
    cseal c13, c7, c14
    keep  c13

    // Refused unseals: another type; an authority without US; one that is not sealed, by an
    // authority for its type 0.
    authority c14, 10
    cunseal c13, c9, c14
    keep  c13
    li    x5, ~US
    candperm c14, c8, x5
    cunseal c13, c9, c14
    keep  c13
    cunseal c13, c7, c3
    keep  c13
    // An authority without GL unseals, and takes GL.
    li    x5, ~GL
    candperm c14, c8, x5
    cunseal c13, c9, c14
    keep  c13

    // Code sealed with 6 is no sentry.
    authority c14, 6
    cseal c13, c6, c14
    keep  c13
    jalr  c1, 0(c13)
    finish

    .org  0x800
data:
    .word 7

// data is 0x20000800. Bounds of 64 bytes there: E 0, T 0x40, B 0: 0x7E000000 + 0x40 * 2^9. A stored
// type t adds t * 2^22. The authority [9, 10): T 10, B 9, of the sealing root's code 0x27.
// run: 500
// expect: trapped = 5
// expect: c7 = data 0x7e008000 1
// expect: c8 = 9 0x4e001409 1
// expect: c9 = data 0x7e408000 1
// expect: x10 = 9
// expect: c11 = data 0x7e008000 1
// expect: x12 = 1
// c9, cause 3, four times.
// expect: word log = 28
// expect: word log+4 = 0x123
// expect: word log+20 = 0x123
// expect: word log+36 = 0x123
// expect: word log+52 = 0x123
// Changes: the address, the rights, the bounds (T 8); then the copy.
// expect: cap results = data 0x7e408000 0
// expect: cap results+8 = data 0x7e408000 0
// expect: cap results+16 = data 0x7e401000 0
// expect: cap results+24 = data 0x7e408000 1
// Refused seals. PCC's copy in c6 is where AUIPCC stood, the seventh instruction.
// expect: cap results+32 = data 0x7e008000 0
// expect: cap results+40 = data 0x7ec08000 0
// expect: cap results+48 = 0x20000018 0x5e7e0000 0
// expect: cap results+56 = 0x20000018 0x5f3e0000 0
// expect: cap results+64 = data 0x7e808000 0
// expect: cap results+72 = data 0x7e408000 0
// expect: cap results+80 = data 0x7e808000 0
// expect: cap results+88 = data 0x7e408000 0
// expect: cap results+96 = data 0x7e008000 0
// expect: cap results+104 = data 0x7e408000 0
// Refused unseals.
// expect: cap results+112 = data 0x7e008000 0
// expect: cap results+120 = data 0x7e008000 0
// expect: cap results+128 = data 0x7e008000 0
// Without GL: code 0x1F.
// expect: cap results+136 = data 0x3e008000 1
// expect: cap results+144 = 0x20000018 0x5fbe0000 1
// c13, cause 3.
// expect: word log+64 = 28
// expect: word log+68 = 0x1a3
// expect: word data = 7
// expect: PCC = done 0x5e3e0000 1
