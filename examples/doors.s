# A program for a debugger (docs/DEBUGGER.md): opens doors 3 and 5 in a table of sixteen, and then one that the table
# does not have. Reset's authorities are cut to the table first, so that the last store is stopped.

.include "interlock_cheriot.s"

.set DOORS, 16
.set ENTRY_SHIFT, 3
.set STATE, 4                     # where an entry's state begins: "D03:SHUT"

.text
.globl _start
_start:
  cspecialr x5, MTDC              # the memory root, from MTDC
  lui       x6, %hi(table)
  addi      x6, x6, %lo(table)
  csetaddr  x3, x5, x6
  li        x7, DOORS << ENTRY_SHIFT
  csetboundsexact x3, x3, x7
  li        x10, 3
  jal       x1, open_door
  li        x10, 5
  jal       x1, open_door
  li        x10, DOORS            # the first that is none
  jal       x1, open_door
done:
  j         done

# open_door(x10 door) writes 'O' over the first letter of the door's state.
.type open_door, @function
open_door:
  slli      x5, x10, ENTRY_SHIFT
  cincaddr  x6, x3, x5
  li        x7, 'O'
  sb        x7, STATE(x6)
  jalr      x0, 0(x1)
.size open_door, . - open_door

.section .interlock, "aw", @progbits
.balign 8
.type table, @object
table:
  .irp door, 00,01,02,03,04,05,06,07,08,09,10,11,12,13,14,15
  .ascii "D\door:SHUT"
  .endr
.size table, . - table
