/*
 * The first instructions of the loader, at EL1 of an aarch64 machine: SIMD on, the MMU on, a stack, zeros in .bss.
 *
 * The library's loads need no alignment, which aarch64 gives for Normal memory alone, and without the MMU all memory is
 * of Devices. So the two first GiB are mapped to themselves: devices, and RAM.
 */
    .set    BLOCK, 1                            /* a descriptor of 1 GiB that was used */
    .set    USED, 1 << 10
    .set    NORMAL, 1 << 2                      /* attributes 1 of MAIR_EL1 */
    .set    SHARED, 3 << 8
    .set    NOT_EXECUTED, 3 << 53
    .set    TRANSLATION, 25 | 1 << 8 | 1 << 10 | 3 << 12 | 1 << 23      /* 39 bits, cached, no upper half */

    .section .text.start, "ax"
    .globl  _start
_start:
    mov     x0, #3 << 20
    msr     cpacr_el1, x0
    mov     x0, #0xff00
    msr     mair_el1, x0
    ldr     x0, =TRANSLATION
    msr     tcr_el1, x0
    adrp    x0, blocks
    msr     ttbr0_el1, x0
    dsb     ish
    tlbi    vmalle1
    dsb     ish
    isb
    mrs     x0, sctlr_el1
    mov     x1, #1 | 1 << 2 | 1 << 12           /* MMU and caches on */
    orr     x0, x0, x1
    bic     x0, x0, #1 << 1                     /* alignment checks off */
    msr     sctlr_el1, x0
    isb
    ldr     x0, =stack_end
    mov     sp, x0
    ldr     x0, =bss_begin
    ldr     x1, =bss_end
1:  cmp     x0, x1
    b.hs    2f
    stp     xzr, xzr, [x0], #16
    b       1b
2:  bl      load
    /* Nothing was started: the machine goes off by PSCI, and stays here where it can't. */
    ldr     w0, =0x84000008
    hvc     #0
3:  wfe
    b       3b

/* start(begin, end): what was copied there becomes code, and is jumped to. */
    .globl  start
start:
    mov     x2, x0
1:  dc      cvau, x2
    add     x2, x2, #16                         /* no line is shorter */
    cmp     x2, x1
    b.lo    1b
    dsb     ish
    ic      iallu
    dsb     ish
    isb
    br      x0

    .section .rodata.blocks, "a"
    .balign 4096
blocks:
    .quad   0x00000000 | BLOCK | USED | NOT_EXECUTED
    .quad   0x40000000 | BLOCK | USED | SHARED | NORMAL
    .fill   510, 8, 0

/* The public key, as hbsign make wrote it. */
    .section .rodata.key, "a"
    .globl  public_key, public_key_end
public_key:
    .incbin PUBLIC_KEY
public_key_end:
