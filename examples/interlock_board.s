# A board's own start and its door interlock table. The two boards differ in STACK_END alone: 0x20000800
# on the small one, 0x20002000 on the large one.
#
# The start cuts, from the roots at reset, what the image may use, and jumps to it: c2 is the stack, c3 the
# interlock table, which the image may only read. Then no root is left: a trap lands in a loop of the board's own,
# and the other special registers hold nothing, so that no run of any image writes the table. With CARELESS
# defined the roots stay in the special registers, as reset left them.

.include "interlock_cheriot.s"

.set IMAGE, 0x20000100
.set IMAGE_SIZE, 0x300
.set TABLE, 0x20000400
.set TABLE_SIZE, 0x80
.set STACK, TABLE + TABLE_SIZE
.set LANDED_SIZE, 4

.text
.globl _start
_start:
  cspecialr x5, MTDC              # the memory root, from MTDC

  li        x6, STACK             # the stack, growing down from its end
  csetaddr  x2, x5, x6
  li        x7, STACK_END - STACK
  csetboundsexact x2, x2, x7
  cincaddr  x2, x2, x7

  li        x6, TABLE             # the table, to be read alone
  csetaddr  x3, x5, x6
  li        x7, TABLE_SIZE
  csetboundsexact x3, x3, x7
  li        x7, LD
  candperm  x3, x3, x7

  auipc     x5, 0                 # the image, without the right to system registers
  li        x6, IMAGE
  csetaddr  x4, x5, x6
  li        x7, IMAGE_SIZE
  csetboundsexact x4, x4, x7
  li        x7, ~SR
  candperm  x4, x4, x7

.ifndef CARELESS
  lui       x6, %hi(landed)       # a trap lands there, in MTCC, without that right either
  addi      x6, x6, %lo(landed)
  csetaddr  x5, x5, x6
  li        x6, LANDED_SIZE
  csetboundsexact x5, x5, x6
  candperm  x5, x5, x7
  cspecialw MTCC, x5
  li        x5, 0                 # the roots go: MTDC, MScratchC, MEPCC
  cspecialw MTDC, x5
  cspecialw MSCRATCHC, x5
  cspecialw MEPCC, x5
.endif

  li        x5, 0                 # nothing else is left to it
  li        x6, 0
  li        x7, 0
  jalr      x0, 0(x4)

landed:
  j         landed

# Eight bytes for each of sixteen doors.
.section .interlock, "aw", @progbits
  .irp door, 00,01,02,03,04,05,06,07,08,09,10,11,12,13,14,15
  .ascii "D\door:SHUT"
  .endr
