# The CHERIoT instructions of the demonstration, as macros for an assembler that knows RISC-V alone
# (the CHERIoT report, chapter 8).

# The special registers (the CHERIoT report, Table 7.2).
.set MTCC, 28
.set MTDC, 29
.set MSCRATCHC, 30
.set MEPCC, 31

# Reads a special register. Its number stands where another instruction has rs2, as part of an immediate here: an assembler for
# cores with 16 registers, rv32e, has no name for one above x15.
.macro cspecialr cd, scr
  .insn i 0x5b, 0, \cd, x0, 0x20 + \scr
.endm
# Writes it, from a register that is not x0.
.macro cspecialw scr, cs1
  .insn i 0x5b, 0, x0, \cs1, 0x20 + \scr
.endm
.macro csetboundsexact cd, cs1, rs2
  .insn r 0x5b, 0, 0x09, \cd, \cs1, \rs2
.endm
.macro candperm cd, cs1, rs2
  .insn r 0x5b, 0, 0x0d, \cd, \cs1, \rs2
.endm
.macro csetaddr cd, cs1, rs2
  .insn r 0x5b, 0, 0x10, \cd, \cs1, \rs2
.endm
.macro cincaddr cd, cs1, rs2
  .insn r 0x5b, 0, 0x11, \cd, \cs1, \rs2
.endm
.macro cincaddrimm cd, cs1, imm
  .insn i 0x5b, 1, \cd, \cs1, \imm
.endm
.macro clc cd, imm, cs1
  .insn i 0x03, 3, \cd, \imm(\cs1)
.endm
.macro csc cs2, imm, cs1
  .insn s 0x23, 3, \cs2, \imm(\cs1)
.endm

# The rights (document 01, "Capability word").
.set LD, 1 << 5
.set SR, 1 << 7
