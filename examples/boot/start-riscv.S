/*
 * The first instructions of the loader on RISC-V of 32 or 64 bits, QEMU's `virt`, in machine mode: a stack, and zeros
 * in .bss.
 */
    .section .text.start, "ax"
    .globl  _start
_start:
    csrr    t0, mhartid
    bnez    t0, halt
    la      t0, halt
    csrw    mtvec, t0                           /* whatever else happens */
    la      sp, stack_end
    la      t0, bss_begin
    la      t1, bss_end
1:  bgeu    t0, t1, 2f
    sw      zero, 0(t0)
    addi    t0, t0, 4
    j       1b
2:  call    load
    /* Nothing was started: the machine goes off, and stays here where it can't. */
    li      t0, 0x100000
    li      t1, 0x5555
    sw      t1, 0(t0)
    .balign 4
halt:
    wfi
    j       halt

/* start(begin, end): what was copied there becomes code, and is jumped to. */
    .globl  start
start:
    fence   rw, rw
    fence.i
    jr      a0

/* The public key, as hbsign make wrote it. */
    .section .rodata.key, "a"
    .globl  public_key, public_key_end
public_key:
    .incbin PUBLIC_KEY
public_key_end:
