// A delegation that cannot be kept: without GL and LG the delegated capability and all that is
// loaded through it are local, and go into memory only where SL allows it.
//
// Document 01, house: what is loaded for want of LG is local, sealed or not (report, 7.13.1). CSC of
// a tagged value without GL by an authority without SL: cause 22.

#include "cheriot.inc"
#include "handler.inc"

    begin
    object c7, node, 16
    object c8, next, 16
    li    x5, 9
    csetaddr c5, c3, x5
    cseal c5, c8, c5
    csc   c8, 0(c7)
    csc   c5, 8(c7)
    object c12, globals, 16
    li    x5, ~SL
    candperm c12, c12, x5
    object c13, stack, 16

    li    x5, ~(GL | LG)
    candperm c9, c7, x5         // what is delegated
    clc   c11, 0(c9)
    clc   c14, 8(c9)            // sealed
    csc   c11, 0(c12)           // each of the three is refused
    csc   c14, 0(c12)
    csc   c9, 0(c12)
    csc   c8, 0(c12)            // a global one is not
    ccleartag c1, c11
    csc   c1, 8(c12)            // nor one without a tag
    csc   c11, 0(c13)           // on the stack it is allowed
    csc   c9, 8(c13)
    finish

    .org  0x800
node:
    .org  0x810
next:
    .org  0x900
globals:
    .org  0x980
stack:
    .org  0x990

// node is 0x20000800: T 0x10, B 0. next: T 0x20, B 0x10. globals: T 0x110, B 0x100, code without SL
// 0x3B. stack: T 0x190, B 0x180. Without GL and LG: the code 0 1 1 SL LM 0 is 0x1E.
// run: 200
// expect: trapped = 3
// expect: c9 = node 0x3c002000 1
// expect: c11 = next 0x3c004010 1
// expect: c14 = next 0x3c404010 1
// expect: c12 = globals 0x76022100 1
// expect: c13 = stack 0x7e032180 1
// c12, cause 22, three times.
// expect: word log = 28
// expect: word log+4 = 0x196
// expect: word log+16 = 28
// expect: word log+20 = 0x196
// expect: word log+32 = 28
// expect: word log+36 = 0x196
// expect: cap globals = next 0x7e004010 1
// expect: cap globals+8 = next 0x3c004010 0
// expect: cap stack = next 0x3c004010 1
// expect: cap stack+8 = node 0x3c002000 1
// expect: PCC = done 0x5e3e0000 1
