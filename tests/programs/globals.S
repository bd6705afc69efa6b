// AUIPCC and AUICGP count 2048 bytes and move by the address rule; integer results drop the
// capability that was in their register.
//
// Report, 7.12, AUICGP and AUIPCC: the immediate is signed and shifted by 11; AUICGP clears the tag
// if c3 is sealed or the address is not representable. 7.3: an integer result is a NULL capability
// with that address.

#include "cheriot.inc"
#include "handler.inc"

    begin
code:
    auipcc c7, 1
    auipcc c8, 0xfffff
    li    x5, 9
    csetaddr c9, c3, x5
    object c3, table, 64
    auicgp c10, 0               // inside
    auicgp c11, 1               // 2048 further: not representable
    cseal c3, c3, c9
    auicgp c12, 0               // sealed
    cmove c13, c10
    add   x13, x13, x0          // the number stays, the capability goes
    csub  x14, c11, c10
    cmove c15, c10
    lw    x15, 0(c15)
    cgethigh x1, c10
    cgetaddr x6, c10
    ctestsubset x5, c4, c10
    finish

    .org  0x800
table:
    .word 0x600d600d

// table is 0x20000800: T 0x40, B 0.
// run: 200
// expect: trapped = 0
// expect: c7 = code+0x800 0x5e3e0000 1
// expect: c8 = code+0xfffff804 0x5e3e0000 1
// expect: c10 = table 0x7e008000 1
// expect: c11 = table+0x800 0x7e008000 0
// expect: c3 = table 0x7e408000 1
// expect: c12 = table 0x7e408000 0
// expect: x13 = table
// expect: x14 = 0x800
// expect: x15 = 0x600d600d
// expect: x1 = 0x7e008000
// expect: x6 = table
// expect: x5 = 1
// expect: PCC = done 0x5e3e0000 1
