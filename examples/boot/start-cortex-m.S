/*
 * The first words and instructions of the loader on a Cortex-M3, mps2-an385: the vector table at address 0, zeros in
 * .bss, and the serial port on. Code is in flash, and data in memory from 0x20000000 on.
 */
    .syntax unified
    .thumb
    .section .text.start, "ax"
    .word   stack_end
    .word   reset + 1
    .rept   14
    .word   halt + 1                            /* whatever else happens */
    .endr

    .globl  _start
    .thumb_func
_start:
reset:
    ldr     r0, =bss_begin
    ldr     r1, =bss_end
    movs    r2, #0
1:  cmp     r0, r1
    bhs     2f
    str     r2, [r0], #4
    b       1b
2:  ldr     r0, =0x40004000
    movs    r1, #16
    str     r1, [r0, #16]                       /* its divisor */
    movs    r1, #1
    str     r1, [r0, #8]                        /* its transmitter on */
    bl      load
    /* Nothing was started. QEMU ends here by semihosting; without it this is a fault, whose vector is halt. */
    movs    r0, #0x18
    ldr     r1, =0x20026
    bkpt    #0xab
    .thumb_func
halt:
    wfi
    b       halt

/* start(begin, end): jumps to what was copied there, as Thumb code. */
    .globl  start
    .thumb_func
start:
    dsb
    isb
    orr     r0, r0, #1
    bx      r0
    .ltorg

/* What the library calls by the names of Arm's run-time ABI. Its fills have length and byte the other way round. */
    .macro  named name
    .globl  __aeabi_\name, __aeabi_\name\()4, __aeabi_\name\()8
    .thumb_func
__aeabi_\name:
    .thumb_func
__aeabi_\name\()4:
    .thumb_func
__aeabi_\name\()8:
    .endm

    named   memcpy
    b       memcpy
    named   memmove
    b       memmove
    named   memclr
    movs    r2, #0
    named   memset
    mov     r3, r1
    mov     r1, r2
    mov     r2, r3
    b       memset

/* The public key, as hbsign make wrote it. */
    .section .rodata.key, "a"
    .globl  public_key, public_key_end
public_key:
    .incbin PUBLIC_KEY
public_key_end:
