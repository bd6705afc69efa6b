// Jumps and branches by a PCC of 21 bytes: what their targets must have in bounds, and what a jump
// through a capability that is no good says.
//
// Report, CJAL and CJALR: a target needs two bytes in bounds, else cause 1, of PCC (register 32) or of
// cs1; taken branches likewise; a branch that is not taken checks nothing. CJALR: tag, seal, EX,
// bounds. cs1 is read before cd is written.

#include "cheriot.inc"
#include "handler.inc"

    begin
    place x5, inner
    csetaddr c7, c6, x5
    csetboundsimm c7, c7, 21
    csetboundsimm c15, c7, 15
    jalr  c7, 0(c7)             // the link goes to the same register
back:
    li    x5, 9
    csetaddr c5, c3, x5
    cseal c9, c4, c5
    jalr  c1, 0(c9)             // sealed, and not executable: 3
    jalr  c1, 0(c10)            // of the reserved type 4, which is lent: 3
    ccleartag c11, c10
    jalr  c1, 0(c11)            // the same without a tag: 2
    jalr  c1, 0(c4)             // not executable: 17
    jalr  c1, 14(c15)           // one byte in bounds: 1
    li    x5, 2
    csetaddr c5, c3, x5
    cseal c12, c7, c5           // a link is sealed already, so this has no tag
    jalr  c1, 0(c12)
    finish

    .org  0x740
inner:
    auipcc c8, 0
    jal   c1, last              // one byte in bounds
    beq   x0, x0, last          // the same
    bne   x0, x0, last          // not taken
    jalr  c0, 0(c7)
last:
    nop

// inner is 0x20000740; 21 bytes: T 0x155, B 0x140; 15 bytes: T 0x14F. The code is 0x2F.
// lend: c10 = 0x20000000 0x5f3e0000 1
// run: 400
// expect: trapped = 8
// PCC, cause 1, twice.
// expect: word log = 28
// expect: word log+0x4 = 0x401
// expect: word log+0x10 = 28
// expect: word log+0x14 = 0x401
// c9 and c10, cause 3; c11, cause 2; c4, cause 17; c15, cause 1; c12, cause 2.
// expect: word log+0x24 = 0x123
// expect: word log+0x34 = 0x143
// expect: word log+0x44 = 0x162
// expect: word log+0x54 = 0x91
// expect: word log+0x60 = 28
// expect: word log+0x64 = 0x1e1
// expect: word log+0x74 = 0x182
// expect: c8 = inner 0x5e02ab40 1
// expect: c7 = back 0x5ebe0000 1
// expect: c15 = inner 0x5e029f40 1
// expect: c9 = 0 0x7e7e0000 1
// expect: c12 = back 0x5ebe0000 0
// expect: x1 = 0
// expect: PCC = done 0x5e3e0000 1
