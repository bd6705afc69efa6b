// The later edition: calls into a compartment and their returns, and jumps that take no return
// sentry or no sentry. The entry and the caller after each return note mstatus.MIE as the next bit
// of x13.
//
// Document 02, 8: a link is of type 5 if MIE was set before the jump, else of type 4, and the return
// through c1 brings MIE back. Any other jump through a link, a return through a plain sentry and a
// jump that is no call through a sentry that changes MIE are cause 3. CSeal does not make a link.

#include "cheriot.inc"
#include "handler.inc"

    .macro note
    csrr  x15, mstatus
    srli  x15, x15, 3
    andi  x15, x15, 1
    slli  x13, x13, 1
    or    x13, x13, x15
    .endm

    begin
    place x5, entry
    csetaddr c6, c6, x5
    li    x5, 2
    csetaddr c7, c3, x5
    cseal c9, c6, c7
    cincaddrimm c7, c7, 1
    cseal c10, c6, c7
    cincaddrimm c7, c7, 1
    cseal c11, c6, c7           // type 4 is reserved for CSeal

    csrrsi x0, mstatus, 8
    jalr  c1, 0(c9)             // type 2, MIE 1: inside 0, after 1
first:
    cmove c12, c1
    note
    csrrci x0, mstatus, 8
    jalr  c1, 0(c10)            // type 3, MIE 0: inside 1, after 0
second:
    cmove c8, c1
    note

    jalr  c1, 0(c12)            // a call through a link
    jalr  c0, 0(c12)            // a link, and not through c1
    cmove c1, c9
    jalr  c0, 0(c1)             // a return through a plain sentry
    jalr  c5, 0(c9)             // a sentry that changes MIE, and no call
    j     done

entry:
    note
    ret

    finish

// The executable root's metadata is 0x5E3E0000; a type t adds t * 2^22.
// edition: 1
// run: 400
// expect: trapped = 4
// expect: x13 = 0x6
// expect: c9 = entry 0x5ebe0000 1
// expect: c10 = entry 0x5efe0000 1
// expect: c11 = entry 0x5f3e0000 0
// expect: c12 = first 0x5f7e0000 1
// expect: c8 = second 0x5f3e0000 1
// expect: c1 = entry 0x5ebe0000 1
// c12, c12, c1 and c9, each with cause 3.
// expect: word log = 28
// expect: word log+4 = 0x183
// expect: word log+16 = 28
// expect: word log+20 = 0x183
// expect: word log+32 = 28
// expect: word log+36 = 0x23
// expect: word log+48 = 28
// expect: word log+52 = 0x123
// expect: mstatus = 0x80
// expect: PCC = done 0x5e3e0000 1
