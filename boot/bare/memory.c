/*
 * What the archives want of a C library, and where a program begins on a machine without a system. Plain and small: a
 * firmware has its own.
 */
#include <stddef.h>
#include <stdint.h>

void start(void);
void begin(void);
void fault(void);
extern uint32_t stack_end[];

/* Eight bytes in a turn, as QEMU has to run each instruction. */
void *memcpy(void *to, const void *from, size_t length) {
    uint8_t *t = to;
    const uint8_t *f = from;
    for (; length >= 8; length -= 8, t += 8, f += 8) {
        t[0] = f[0], t[1] = f[1], t[2] = f[2], t[3] = f[3];
        t[4] = f[4], t[5] = f[5], t[6] = f[6], t[7] = f[7];
    }
    while (length--) *t++ = *f++;
    return to;
}

void *memmove(void *to, const void *from, size_t length) {
    uint8_t *t = to;
    const uint8_t *f = from;
    if (t <= f) return memcpy(to, from, length);
    while (length--) t[length] = f[length];
    return to;
}

void *memset(void *to, int byte, size_t length) {
    uint8_t *t = to;
    const uint8_t b = (uint8_t)byte;
    for (; length >= 8; length -= 8, t += 8) {
        t[0] = b, t[1] = b, t[2] = b, t[3] = b, t[4] = b, t[5] = b, t[6] = b, t[7] = b;
    }
    while (length--) *t++ = b;
    return to;
}

#if defined(__arm__)
/* The run-time ABI of Arm: fills have length and byte the other way round. */
#define SAME(name, of) __attribute__((alias(#of))) void *name(void *, const void *, size_t)
SAME(__aeabi_memcpy, memcpy);
SAME(__aeabi_memcpy4, memcpy);
SAME(__aeabi_memcpy8, memcpy);
SAME(__aeabi_memmove, memmove);
SAME(__aeabi_memmove4, memmove);
SAME(__aeabi_memmove8, memmove);
void __aeabi_memclr(void *to, size_t length) { memset(to, 0, length); }
__attribute__((alias("__aeabi_memclr"))) void __aeabi_memclr4(void *, size_t);
__attribute__((alias("__aeabi_memclr"))) void __aeabi_memclr8(void *, size_t);
void __aeabi_memset(void *to, size_t length, int byte) { memset(to, byte, length); }
__attribute__((alias("__aeabi_memset"))) void __aeabi_memset4(void *, size_t, int);
__attribute__((alias("__aeabi_memset"))) void __aeabi_memset8(void *, size_t, int);

/* Quotient and remainder, in the registers of a number of 64 bits. */
uint64_t __aeabi_uidivmod(uint32_t number, uint32_t by) {
    uint32_t quotient = 0, rest = 0;
    int bit;
    for (bit = 31; bit >= 0; bit--) {
        rest = rest << 1 | (number >> bit & 1);
        if (rest >= by) {
            rest -= by;
            quotient |= (uint32_t)1 << bit;
        }
    }
    return (uint64_t)rest << 32 | quotient;
}

uint32_t __aeabi_uidiv(uint32_t number, uint32_t by) { return (uint32_t)__aeabi_uidivmod(number, by); }
#endif

/*
 * Where a program begins. Each exception leads to fault. With FAULTS as 1 an unaligned load or store is an exception,
 * where the processor can do that. With SIMD an aarch64 has its registers, and the MMU on: only then does it load from
 * any address, in memory that isn't a device's.
 */
#ifndef FAULTS
#define FAULTS 0
#endif
#define TEXT_OF(it) #it
#define TEXT(it) TEXT_OF(it)

#if defined(__ARM_ARCH_PROFILE) && __ARM_ARCH_PROFILE == 'M'
#define FOUR_FAULTS (void *)fault, (void *)fault, (void *)fault, (void *)fault
__attribute__((section(".begin"), used)) static void *const vectors[16] = {
    stack_end, (void *)begin, (void *)fault, (void *)fault, FOUR_FAULTS, FOUR_FAULTS, FOUR_FAULTS};

/* CCR.UNALIGN_TRP, which Cortex-M0 has always set. */
void begin(void) {
    if (FAULTS) *(volatile uint32_t *)0xe000ed14u |= 8;
    start();
}
#elif defined(__riscv)
__attribute__((section(".begin"), naked)) void begin(void) {
    __asm__("la sp, stack_end\n"
            "la t0, fault\n"
            "csrw mtvec, t0\n"
            "tail start");
}
#elif defined(__aarch64__)
#ifdef SIMD
#define MMU "1"
/* The first GiB is of devices, the second Normal memory, of 32 bits of addresses. */
#define PREPARE \
    "mov x9, #3 << 20\n" \
    "msr cpacr_el1, x9\n" \
    "mov x9, #0xff00\n" \
    "msr mair_el1, x9\n" \
    "ldr x9, =0x803520\n" \
    "msr tcr_el1, x9\n" \
    "adr x9, blocks\n" \
    "msr ttbr0_el1, x9\n" \
    "dsb ish\n" \
    "tlbi vmalle1\n" \
    "dsb ish\n" \
    "isb\n"
#else
#define MMU "0"
#define PREPARE
#endif
__asm__(".section .vectors, \"ax\"\n"
        ".balign 2048\n"
        "vectors:\n"
        ".rept 16\n"
        "b fault\n"
        ".balign 128\n"
        ".endr\n"
        "blocks:\n"
        ".quad 0x401, 0x40000705, 0, 0\n"
        ".text");

/* SCTLR_EL1 has the bits M and A. */
__attribute__((section(".begin"), naked)) void begin(void) {
    __asm__(PREPARE
            "adrp x9, vectors\n"
            "add x9, x9, :lo12:vectors\n"
            "msr vbar_el1, x9\n"
            "mrs x9, sctlr_el1\n"
            "bic x9, x9, #3\n"
            "mov x10, #" TEXT(FAULTS) " << 1 | " MMU "\n"
            "orr x9, x9, x10\n"
            "msr sctlr_el1, x9\n"
            "isb\n"
            "adrp x9, stack_end\n"
            "add x9, x9, :lo12:stack_end\n"
            "mov sp, x9\n"
            "b start");
}
#else
/* (an exception has a stack pointer of its own) */
__asm__(".section .vectors, \"ax\"\n"
        ".balign 32\n"
        "vectors:\n"
        ".rept 8\n"
        "b faulted\n"
        ".endr\n"
        "faulted:\n"
        "ldr sp, =stack_end\n"
        "b fault\n"
        ".ltorg\n"
        ".text");

/* SCTLR has the bit A. */
__attribute__((section(".begin"), naked)) void begin(void) {
    __asm__("ldr sp, =stack_end\n"
            "ldr r0, =vectors\n"
            "mcr p15, 0, r0, c12, c0, 0\n"
            "mrc p15, 0, r0, c1, c0, 0\n"
            "bic r0, r0, #2\n"
            "orr r0, r0, #" TEXT(FAULTS) " << 1\n"
            "mcr p15, 0, r0, c1, c0, 0\n"
            "isb\n"
            "b start");
}
#endif
