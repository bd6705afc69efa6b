// memory: 0xfffff000 4096
// The end of the address space: document 01, "Cases", the last of them. A no-op in the last word, by
// a PCC of the last 4,096 bytes, retires, and PCC is then untagged at 0.
//
// 4096 bytes need the exponent 4: B is 0xFFFFF00 mod 512, T is 2^28 mod 512; the code is 0x2F.
// The next fetch is cause 2 of register 32. MTCC at 0 then fetches outside memory: mcause 1.

    .org  0xffc
    nop

// lend: PCC = 0xfffffffc 0x5e100100 1
// run: 1
// expect: retired = 1
// expect: PCC = 0 0x5e100100 0
// run: 1
// expect: trapped = 1
// expect: mcause = 28
// expect: mtval = 0x402
// expect: MEPCC = 0 0x5e100100 0
// expect: PCC = 0 0x5e3e0000 1
// run: 1
// expect: trapped = 1
// expect: mcause = 1
// expect: mtval = 0
// expect: MEPCC = 0 0x5e3e0000 1
// The same place with jal c1, -4: the link at 0 has no tag, of type 2 (MIE is 0).
// lend: word 0xfffffffc = 0xffdff0ef
// lend: PCC = 0xfffffffc 0x5e100100 1
// run: 1
// expect: retired = 1
// expect: c1 = 0 0x5e900100 0
// expect: PCC = 0xfffffff8 0x5e100100 1
// The last two bytes: a short word runs there, c.nop, and PCC is then untagged at 0; with c.jal .-2 the
// link is. A long word's second half would be at 2^32: out of bounds, and not at 0.
// lend: word 0xfffffffc = 0x00010000
// lend: PCC = 0xfffffffe 0x5e100100 1
// run: 1
// expect: retired = 1
// expect: PCC = 0 0x5e100100 0
// lend: word 0xfffffffc = 0x3ffd0000
// lend: PCC = 0xfffffffe 0x5e100100 1
// run: 1
// expect: retired = 1
// expect: c1 = 0 0x5e900100 0
// expect: PCC = 0xfffffffc 0x5e100100 1
// lend: word 0xfffffffc = 0x00130000
// lend: PCC = 0xfffffffe 0x5e3e0000 1
// run: 1
// expect: trapped = 1
// expect: mcause = 28
// expect: mtval = 0x401
// expect: MEPCC = 0xfffffffe 0x5e3e0000 1
