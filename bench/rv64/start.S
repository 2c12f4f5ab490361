/* The entry, and the calls that are counted (counting.h). */
.section .text.start
.globl _start
_start:
    la sp, stack_top
    call main
    call stop

.text
/* Between the two readings: a load for each argument that goes into a register, a load and a store for the ninth, the
   call, and all that the callee does up to its return. Assembler, so that no compiler has a say in what is counted. */
.macro counted_call count
.globl counted_call_\count
counted_call_\count:
    addi sp, sp, -48
    sd ra, 8(sp)
    sd s0, 16(sp)
    sd s1, 24(sp)
    sd s2, 32(sp)
    mv s2, a2
    mv t0, a0
    mv t1, a1
    csrr s0, minstret
.irp number, 0, 1, 2, 3, 4, 5, 6, 7
.if \number < \count
    ld a\number, 8 * \number(t1)
.endif
.endr
.if \count > 8
    ld t2, 64(t1)
    sd t2, 0(sp)
.endif
    jalr t0
    csrr s1, minstret
    sd a0, 0(s2)
    sub a0, s1, s0
    ld ra, 8(sp)
    ld s0, 16(sp)
    ld s1, 24(sp)
    ld s2, 32(sp)
    addi sp, sp, 48
    ret
.endm

counted_call 4
counted_call 5
counted_call 6
counted_call 7
counted_call 8
counted_call 9

.globl counted_nothing
counted_nothing:
    csrr t0, minstret
    csrr a0, minstret
    sub a0, a0, t0
    ret

.globl counted_nops
counted_nops:
    csrr t0, minstret
.rept 1000
    nop
.endr
    csrr a0, minstret
    sub a0, a0, t0
    ret
