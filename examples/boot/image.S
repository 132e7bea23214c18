/* An image to start: it says so on the serial port, and turns the machine off. */
    .globl  _start
#if defined(__aarch64__)
_start:
    adr     x1, text
    mov     x2, #0x09000000
1:  ldrb    w0, [x1], #1
    cbz     w0, 2f
    str     w0, [x2]
    b       1b
2:  ldr     w0, =0x84000008
    hvc     #0
3:  wfe
    b       3b
    .ltorg
#elif defined(__riscv)
_start:
    lla     a1, text
    li      a2, 0x10000000
1:  lbu     a0, 0(a1)
    beqz    a0, 2f
    sb      a0, 0(a2)
    addi    a1, a1, 1
    j       1b
2:  li      a0, 0x5555
    li      a1, 0x100000
    sw      a0, 0(a1)
3:  wfi
    j       3b
#else
    .syntax unified
    .thumb
    .thumb_func
_start:
    adr     r1, text
    ldr     r2, =0x40004000
1:  ldrb    r0, [r1], #1
    cbz     r0, 2f
    str     r0, [r2]
    b       1b
2:  movs    r0, #0x18
    ldr     r1, =0x20026
    bkpt    #0xab
3:  wfi
    b       3b
    .ltorg
    .balign 4
#endif
text:
    .asciz  "image: version 1 has started\n"
