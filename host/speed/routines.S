# Routines of GCC's library for RV32E that touch no memory, called again and again on numbers that keep changing.
    .globl _start
_start:
    li s0, 0x12345
    li s1, 7
again:
    mv a0, s0
    mv a1, s1
    jal ra, __udivsi3
    mv s1, a0
    mv a0, s0
    mv a1, s1
    jal ra, __mulsi3
    addi s0, s0, 77
    xor s1, s1, a0
    mv a0, s0
    mv a1, s1
    li a2, 13
    jal ra, __ashldi3
    mv a0, s1
    jal ra, __bswapsi2
    ori s1, a0, 1
    mv a0, s0
    jal ra, __paritysi2
    j again
