// A heap that alone has revocation bits: what begins in it is revoked by them, what begins before or
// after it is not.
//
// Document 02, 5: the bits are those of a window, the first that of its first granule; outside the
// window counts as clear, and a window may be empty, also at memory's end.

#include "cheriot.inc"
#include "handler.inc"

    begin
    object c7, before, 1        // the byte before the heap
    object c8, heap, 1          // its first byte
    object c9, middle, 1        // in its second granule
    object c10, last, 1         // its last byte
    object c11, after, 1        // the byte after it
    csc   c7, 0(c2)
    csc   c8, 8(c2)
    csc   c9, 16(c2)
    csc   c10, 24(c2)
    csc   c11, 32(c2)
    clc   c7, 0(c2)
    clc   c8, 8(c2)
    clc   c9, 16(c2)
    clc   c10, 24(c2)
    clc   c11, 32(c2)
wait:
    beqz  x15, wait

    clc   c12, 8(c2)            // once more, and nothing has a bit
    finish

    .org  0x7ff
before:
    .org  0x800
heap:
    .org  0x808
middle:
    .org  0x8f8
end:
    .org  0x8ff
last:
    .org  0x900
after:

// Its first and its last granule are marked.
// window: heap after
// revoke: heap middle
// revoke: end after
// run: 80
// expect: trapped = 0
// Code 0x3F, E 0. before is 0x200007FF: T 0, B 0x1FF. heap: T 1, B 0. middle: T 9, B 8. last: T 0x100, B
// 0xFF. after: T 0x101, B 0x100.
// expect: c7 = before 0x7e0001ff 1
// expect: c8 = heap 0x7e000200 0
// expect: c9 = middle 0x7e001208 1
// expect: c10 = last 0x7e0200ff 0
// expect: c11 = after 0x7e020300 1
// expect: cap results+8 = heap 0x7e000200 1
// expect: PCC = wait 0x5e3e0000 1
// window: 0x20001000 0x20001000
// lend: x15 = 1
// run: 20
// expect: trapped = 0
// expect: c12 = heap 0x7e000200 1
// expect: PCC = done 0x5e3e0000 1
