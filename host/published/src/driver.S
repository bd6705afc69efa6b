// Calls a routine under qemu-riscv32, again and again, on the registers and the stack words that
// standard input gives. The bench has the same link as its memory, up to `arena_end`; there
// EBREAK stands at `returned`.
//
// A record is 32 words, in and out. In: the routine's address, x1 to x15, and the 16 words from the
// stack pointer on; x1 and x2 are not taken, x1 is the link and x2 the stack pointer. Out: where
// EBREAK stopped the routine, or 0 if it returned; then x1 to x15 and the stack words as it left
// them. RV32E has a system call's number in t0.

    .equ WINDOW_BYTES, 64
    .equ RECORD_BYTES, 64 + WINDOW_BYTES
    .equ RECORDS, 256
    .equ READ, 63
    .equ WRITE, 64
    .equ EXIT, 93
    .equ SIGALTSTACK, 132
    .equ SIGACTION, 134
    .equ SIGRETURN, 139
    .equ SIGTRAP, 5
    .equ SIGNAL_STACK_BYTES, 65536
    .equ FLAGS, 0x08000004  // SA_SIGINFO, SA_ONSTACK

    // The driver's own words, above the window.
    .equ RECORD, WINDOW_BYTES       // the record at hand
    .equ END, WINDOW_BYTES + 4      // the end of the last record read
    .equ SAVED, WINDOW_BYTES + 8    // x8 as the routine left it
    .equ STOPPED, WINDOW_BYTES + 12 // where EBREAK stopped the routine, or 0
    .equ LEFT_SP, WINDOW_BYTES + 16 // the stack pointer as the routine left it

    .macro address rd, label
    lui   \rd, %hi(\label)
    addi  \rd, \rd, %lo(\label)
    .endm
    .macro each instruction
    .irp n, 3, 4, 5, 6, 7, 9, 10, 11, 12, 13, 14, 15
    \instruction x\n, 4 * \n(x8)
    .endr
    .endm

    .option norelax
    .section .stub, "ax"
    .globl call, returned, stop
call:
    jalr  x1, 0(x1)
returned:
    j     keep
stop:                       // the bench's end: a loop that changes nothing
    j     stop

// What some routines need of a C library: memset(a0, a1, a2).
    .globl memset
memset:
    add   a2, a2, a0
    mv    a3, a0
1:
    beq   a3, a2, 2f
    sb    a1, 0(a3)
    addi  a3, a3, 1
    j     1b
2:
    ret

    .section .arena, "aw", @nobits
    .balign 16
    .globl saved, sp_start
saved:
    .skip 128               // the repairing handler's registers
    .skip 1024              // the stack
sp_start:
    .skip WINDOW_BYTES + 20

    .section .driver, "ax"
    .globl _start
_start:
    address sp, sp_start
    address a0, signal_stack
    li    a1, 0
    li    t0, SIGALTSTACK
    ecall
    bnez  a0, failed
    li    a0, SIGTRAP
    address a1, action
    li    a2, 0
    li    a3, 8
    li    t0, SIGACTION
    ecall
    bnez  a0, failed

batch:
    li    a0, 0
    address a1, records
    li    a2, RECORDS * RECORD_BYTES
    li    t0, READ
    ecall
    bltz  a0, failed
    beqz  a0, finished
    address x8, records
    add   a0, a0, x8
    sw    a0, END(sp)

enter:
    sw    x8, RECORD(sp)
    sw    x0, STOPPED(sp)
    sw    sp, LEFT_SP(sp)
    addi  x5, x8, 64
    mv    x6, sp
    addi  x7, sp, WINDOW_BYTES
fill:
    lw    x9, 0(x5)
    sw    x9, 0(x6)
    addi  x5, x5, 4
    addi  x6, x6, 4
    bne   x6, x7, fill
    lw    x1, 0(x8)
    each  lw
    lw    x8, 32(x8)
    j     call

keep:
    sw    x8, SAVED(sp)
    lw    x8, RECORD(sp)
    sw    x1, 4(x8)
    each  sw
    lw    x9, LEFT_SP(sp)
    sw    x9, 8(x8)
    lw    x9, SAVED(sp)
    sw    x9, 32(x8)
    lw    x9, STOPPED(sp)
    sw    x9, 0(x8)
    addi  x5, x8, 64
    mv    x6, sp
    addi  x7, sp, WINDOW_BYTES
drain:
    lw    x9, 0(x6)
    sw    x9, 0(x5)
    addi  x5, x5, 4
    addi  x6, x6, 4
    bne   x6, x7, drain
    mv    x8, x5
    lw    x9, END(sp)
    bltu  x8, x9, enter

    li    a0, 1
    address a1, records
    sub   a2, x9, a1
    mv    x9, a2
    li    t0, WRITE
    ecall
    beq   a0, x9, batch
failed:
    li    a0, 1
    li    t0, EXIT
    ecall
finished:
    li    a0, 0
    li    t0, EXIT
    ecall

// SIGTRAP: a1 is the siginfo, a2 the context. The context has the program counter, which is the
// fault's address, then x1, which leads into the bench's memory, then x2. The driver goes on at
// `returned`, with its own stack pointer.
trapped:
    lw    a3, 12(a1)
    address a4, returned
find:
    addi  a2, a2, 4
    lw    a5, 0(a2)
    bne   a5, a3, find
    lw    a5, 4(a2)
    srli  a5, a5, 16
    srli  t0, a4, 16
    bne   a5, t0, find
    sw    a4, 0(a2)
    address a4, sp_start
    lw    a5, 8(a2)
    sw    a5, LEFT_SP(a4)
    sw    a3, STOPPED(a4)
    sw    a4, 8(a2)
    li    t0, SIGRETURN     // qemu's own return has the number in a7
    ecall

    .section .driver.data, "aw"
action:
    .word trapped, FLAGS, 0, 0
signal_stack:
    .word signal_bytes, 0, SIGNAL_STACK_BYTES
    .balign 16
signal_bytes:
    .skip SIGNAL_STACK_BYTES
records:
    .skip RECORDS * RECORD_BYTES
