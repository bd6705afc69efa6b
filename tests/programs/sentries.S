// Calls into a compartment through the three kinds of sentry, with interrupts off and on. The entry
// and the caller after each return note mstatus.MIE as the next bit of x13.
//
// Report, 7.13.2 and CJALR: a sentry of type 1 leaves MIE alone, type 2 clears it, type 3 sets it;
// the link is a sentry of type 3 if MIE was set before the jump, else of type 2; a jump through the
// link brings MIE back. A sentry is entered without an offset only, else cause 3; a move of a
// sealed capability clears the tag.

#include "cheriot.inc"
#include "handler.inc"

    .macro note
    csrr  x15, mstatus
    srli  x15, x15, 3
    andi  x15, x15, 1
    slli  x13, x13, 1
    or    x13, x13, x15
    .endm

    begin
    place x5, entry
    csetaddr c6, c6, x5
    li    x5, 1
    csetaddr c7, c3, x5
    cseal c8, c6, c7
    cincaddrimm c7, c7, 1
    cseal c9, c6, c7
    cincaddrimm c7, c7, 1
    cseal c10, c6, c7

    jalr  c1, 0(c8)             // type 1, MIE 0: inside 0, after 0
    note
    jalr  c1, 0(c10)            // type 3, MIE 0: inside 1, after 0
first:
    cmove c11, c1
    note
    csrrsi x0, mstatus, 8
    jalr  c1, 0(c9)             // type 2, MIE 1: inside 0, after 1
second:
    cmove c12, c1
    note
    jalr  c1, 0(c8)             // type 1, MIE 1: inside 1, after 1
third:
    note
    cincaddrimm c14, c9, 4
offset:
    jalr  c1, 4(c9)
    j     done

entry:
    note
    ret

    finish

// The executable root's metadata is 0x5E3E0000; a type t adds t * 2^22.
// run: 400
// expect: trapped = 1
// expect: x13 = 0x27
// expect: c8 = entry 0x5e7e0000 1
// expect: c9 = entry 0x5ebe0000 1
// expect: c10 = entry 0x5efe0000 1
// expect: c11 = first 0x5ebe0000 1
// expect: c12 = second 0x5efe0000 1
// expect: c1 = third 0x5efe0000 1
// expect: c14 = entry+4 0x5ebe0000 0
// c9, cause 3: 9 * 32 + 3.
// expect: word log = 28
// expect: word log+4 = 0x123
// The trap kept MIE in MPIE, MRET brought it back and set MPIE.
// expect: mstatus = 0x88
// expect: mcause = 28
// expect: mtval = 0x123
// expect: MEPCC = offset+4 0x5e3e0000 1
// expect: MTCC = skip 0x5e3e0000 1
// expect: PCC = done 0x5e3e0000 1
