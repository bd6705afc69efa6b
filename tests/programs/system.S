// A compartment whose code lacks SR: no CSR, no special register and no MRET, whatever it tries;
// the caller has them again after the return.
//
// Report, 7.9, CSpecialRW and Figure 7.1: cause 24 (0x18) with register 32 for PCC, and 32 + scr
// for CSpecialRW. Document 01, house: any CSR number but three is illegal, right or no right; FENCE
// and WFI retire.

#include "cheriot.inc"
#include "handler.inc"

    begin
    place x5, compartment
    csetaddr c6, c6, x5
    li    x7, ~SR
    candperm c6, c6, x7
    jalr  c1, 0(c6)
back:
    csrr  x9, mcause
    csrr  x10, mtval
    j     done

compartment:
    csrr  x7, mstatus
    csrw  mtval, x7
    cspecialr c7, MTDC
    cspecialrw c7, MEPCC, c1
    mret
    csrr  x7, mscratch
    fence
    wfi
    li    x8, 1
    ret

    finish

// run: 400
// expect: trapped = 6
// The rights 0x1EB without SR: the code GL 0 1 0 LM LG is 0x2B.
// expect: c6 = compartment 0x563e0000 1
// expect: c1 = back 0x5ebe0000 1
// expect: x7 = 0xffffff7f
// expect: x8 = 1
// 32 * 32 + 24.
// expect: word log = 28
// expect: word log+4 = 0x418
// expect: word log+16 = 28
// expect: word log+20 = 0x418
// (32 + 29) * 32 + 24, then (32 + 31) * 32 + 24.
// expect: word log+32 = 28
// expect: word log+36 = 0x7b8
// expect: word log+48 = 28
// expect: word log+52 = 0x7f8
// expect: word log+64 = 28
// expect: word log+68 = 0x418
// csrr x7, mscratch is CSRRS x7, 0x340, x0.
// expect: word log+80 = 2
// expect: word log+84 = 0x340023f3
// expect: x9 = 2
// expect: x10 = 0x340023f3
// The link of the call was taken with MIE 0 and the return left it 0; MRET had set MPIE.
// expect: mstatus = 0x80
// expect: PCC = done 0x5e3e0000 1
