// A trap handler that repairs and returns with MRET: it gives a register the authority that it
// lacks and tries again, and it does what an illegal instruction asks, CLMUL, and goes on behind it.
//
// Report, 7.11: MEPCC holds PCC at the instruction that trapped, and MRET goes there. The
// privileged standard: a trap keeps MIE in MPIE and clears it, MRET brings it back and sets MPIE.
// Document 01: mtval of mcause 2 is the illegal word; multiplying without carries, the standard's Zbc, is
// illegal here.

#include "cheriot.inc"

    // lend: mstatus = 8
    cspecialr c4, MTDC
    place x5, saved
    csetaddr c5, c4, x5
    cspecialrw c0, MSCRATCHC, c5
    auipcc c6, 0
    place x5, handler
    csetaddr c5, c6, x5
    cspecialrw c0, MTCC, c5
    li    x13, 13
    li    x14, 14
    li    x15, 15

    place x7, number            // an address, and no authority
load:
    lw    x8, 0(x7)
    li    x11, 1234
    li    x12, 5678
multiply:
    .insn 0x0ac59533            // clmul x10, x11, x12
    csrr  x9, mstatus
done:
    j     done

handler:
    cspecialrw c15, MSCRATCHC, c15
    csc   c14, 0(c15)
    csc   c13, 8(c15)
    csc   c9, 16(c15)
    csrr  x9, mstatus
    sw    x9, 24(c15)
    csrr  x14, mcause
    li    x13, 28
    beq   x14, x13, derive
    li    x13, 2
    beq   x14, x13, emulate
stuck:
    j     stuck
derive:
    cspecialr c14, MTDC
    csetaddr c7, c14, x7
    j     return
emulate:
    mv    x13, x11
    mv    x14, x12
    li    x10, 0
bits:
    andi  x9, x14, 1
    beqz  x9, clear
    xor   x10, x10, x13
clear:
    slli  x13, x13, 1
    srli  x14, x14, 1
    bnez  x14, bits
    cspecialr c14, MEPCC
    cincaddrimm c14, c14, 4
    cspecialrw c0, MEPCC, c14
return:
    clc   c9, 16(c15)
    clc   c13, 8(c15)
    clc   c14, 0(c15)
    cspecialrw c15, MSCRATCHC, c15
    mret

    .org  0x800
number:
    .word 0xc0ffee00
    .org  0x840
saved:

// run: 17
// c7, cause 2; interrupts are off in the handler, and on again behind it.
// expect: trapped = 1
// expect: mcause = 28
// expect: mtval = 0xe2
// expect: mstatus = 0x80
// expect: MEPCC = load 0x5e3e0000 1
// expect: PCC = handler+4 0x5e3e0000 1
// run: 200
// expect: trapped = 1
// expect: c7 = number 0x7e3e0000 1
// expect: x8 = 0xc0ffee00
// 1234 shifted by 1, 2, 3, 5, 9, 10 and 12, the bits of 5678, and summed without carries.
// expect: x10 = 5728828
// expect: x11 = 1234
// expect: x12 = 5678
// expect: x13 = 13
// expect: x14 = 14
// expect: x15 = 15
// expect: x9 = 0x88
// expect: word saved+24 = 0x80
// expect: mcause = 2
// expect: mtval = 0x0ac59533
// expect: MEPCC = multiply+4 0x5e3e0000 1
// expect: MScratchC = saved 0x7e3e0000 1
// expect: PCC = done 0x5e3e0000 1
