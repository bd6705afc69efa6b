# The image: plans a journey of forty floors, one call deeper for each, and then stands still. Its frames
# are 32 bytes, so it needs 41 * 32 = 1,312 bytes of stack: the large board has 7,040, the small one 896.

.include "interlock_cheriot.s"

.set FLOORS, 40
.set DOORS_MASK, 15

.text
.globl _start
_start:
  li        x10, FLOORS
  jal       x1, plan
done:
  j         done                  # x10 is the number of floors that were planned

# plan(x10 floors) gives back in x10 how many floors were planned, each with its door shut.
.type plan, @function
plan:
  csc       x1, -8, x2            # the frame: the link, the floor
  sw        x10, -16(x2)
  cincaddrimm x2, x2, -32
  beqz      x10, ground
  andi      x5, x10, DOORS_MASK   # the door's entry in the interlock table
  slli      x5, x5, 3
  cincaddr  x6, x3, x5
  lbu       x7, 4(x6)
  addi      x7, x7, -'S'          # "SHUT", or the journey ends here
  bnez      x7, ground
  addi      x10, x10, -1
  jal       x1, plan
  addi      x10, x10, 1
ground:
  cincaddrimm x2, x2, 32
  clc       x1, -8, x2
  jalr      x0, 0(x1)
.size plan, . - plan
