// The bench's repairing trap handler. Published routines know addresses as integers; where one is
// used as an authority the machine refuses it for its tag. The handler derives a capability with
// that address, from MEPCC for a jump and from MTDC for an access, and returns to try again. Every
// other trap ends the run, with the registers as they were.
//
// MScratchC leads to `saved`: the place of register n is 8 * n in it.

#include "cheriot.inc"

    .macro each instruction
    .irp n, 2, 3, 4, 5, 6, 7, 8, 9, 10, 11, 12, 13, 14
    \instruction x\n, 8 * \n(c15)
    .endr
    .endm

    .section .stub, "ax"
    .globl repair
repair:
    cspecialrw c15, MSCRATCHC, c15
    csc   c1, 8(c15)
    each  csc
    cspecialrw c1, MSCRATCHC, c15
    csc   c1, 120(c15)
    // A capability trap for a tag (28; cause 2) of a general register.
    csrr  x1, mcause
    li    x2, 28
    bne   x1, x2, end
    csrr  x1, mtval
    andi  x2, x1, 31
    li    x3, 2
    bne   x2, x3, end
    srli  x1, x1, 5
    li    x3, 16
    bgeu  x1, x3, end
    slli  x1, x1, 3
    cincaddr c4, c15, x1
    lw    x5, 0(c4)
    // The instruction that trapped: CJALR has the opcode 0x67; C.JR and C.JALR have 4 for funct3, no
    // second register, and 2 for their quadrant.
    cspecialr c6, MEPCC
    lhu   x7, 0(c6)
    andi  x8, x7, 0x7f
    li    x9, 0x67
    beq   x8, x9, derive
    li    x8, 0xe07f
    and   x7, x7, x8
    li    x9, 0x8002
    beq   x7, x9, derive
    cspecialr c6, MTDC
derive:
    csetaddr c6, c6, x5
    csc   c6, 0(c4)
    clc   c1, 8(c15)
    each  clc
    clc   c15, 120(c15)
    mret
end:
    clc   c1, 8(c15)
    each  clc
    clc   c15, 120(c15)
    j     stop
