/*
 * Calls the library on a machine without a system, and gives its answers, the stack and the time that it took. It runs
 * under QEMU, and asks it for files by semihosting: it reads the file `cases`, writes the file `answers`, and ends.
 *
 * A case has four numbers of 32 bits, which of the calls is made and the lengths of key, message and signature, and
 * then their bytes. Its answer has three numbers of 64 bits: what the call returned, the bytes of stack that it wrote
 * over, and the time in ticks of the machine's clock. The stack is measured where MEASURED is added to the call's
 * number, since that takes as long as some refusals; else it is 0. The message of hbs_verify_digest is the digest. For
 * hbs_root the answer is 0 where the key's root came out, and for a message in pieces that of hbs_begin, if it refuses,
 * and else that of hbs_end. With AT_0 the message isn't the case's own, but as many bytes from address 0 on, and with
 * NULLS the answer is how many calls refuse null pointers. UNALIGNED loads a number from an odd address. Where a case
 * ends in an exception, its answer is FAULTED, and the last one.
 */
#include "hbs_verify.h"

enum { OPEN = 1, CLOSE = 2, WRITE = 5, READ = 6, EXIT = 24 };
enum { VERIFY, PREFIX, DIGEST, ROOT, PIECES, NULLS, AT_0, UNALIGNED, MEASURED = 256 };
#define FAULTED (~(uint64_t)0)
/* Painted words of 32 bits below the stack pointer, and those that the caller may be using. */
#define PAINTED 4096
#define CALLER 32
#define PAINT 0xa5a5a5a5u

/* One after the other, so that key and message begin at odd addresses, and the signature where the message ends. */
static uint8_t room[1 + HBS_XMSS_KEY_BYTES + 1 + (1 << 16) + HBS_MOST_SIGNATURE_BYTES + 1] __attribute__((aligned(8)));
static uint8_t *const bytes = room + 1;
static uint8_t prefix[HBS_PREFIX_BYTES], root[HBS_ROOT_BYTES];
static hbs_message so_far;
static intptr_t answers;
void start(void);
void fault(void);
/* Its variables don't count as stack of the calls that are measured. */
#define APART __attribute__((noinline))

/* Asks QEMU for something, as each machine does. */
static intptr_t ask(intptr_t what, void *with) {
#if defined(__riscv)
    register intptr_t a0 __asm__("a0") = what;
    register void *a1 __asm__("a1") = with;
    __asm__ volatile(".balign 16\n.option push\n.option norvc\nslli x0, x0, 0x1f\nebreak\nsrai x0, x0, 7\n.option pop"
                     : "+r"(a0) : "r"(a1) : "memory");
    return a0;
#elif defined(__aarch64__)
    register intptr_t x0 __asm__("x0") = what;
    register void *x1 __asm__("x1") = with;
    __asm__ volatile("hlt #0xf000" : "+r"(x0) : "r"(x1) : "memory");
    return x0;
#else
    register intptr_t r0 __asm__("r0") = what;
    register void *r1 __asm__("r1") = with;
#if defined(__ARM_ARCH_PROFILE) && __ARM_ARCH_PROFILE == 'M'
    __asm__ volatile("bkpt #0xab" : "+r"(r0) : "r"(r1) : "memory");
#else
    __asm__ volatile("svc #0x123456" : "+r"(r0) : "r"(r1) : "memory");
#endif
    return r0;
#endif
}

/* The machine's clock. On Cortex-M it counts down, in the upper 24 bits, so that differences wrap as numbers do. */
static uint32_t ticks(void) {
#if defined(__ARM_ARCH_PROFILE) && __ARM_ARCH_PROFILE == 'M'
    volatile uint32_t *const clock = (volatile uint32_t *)0xe000e010u;
    if ((clock[0] & 1) == 0) {
        clock[1] = 0xffffffu;
        clock[2] = 0;
        clock[0] = 5;
    }
    return 0u - (clock[2] << 8);
#elif defined(__riscv)
    uintptr_t now;
    __asm__ volatile("csrr %0, mcycle" : "=r"(now));
    return (uint32_t)now;
#elif defined(__aarch64__)
    uint64_t now;
    __asm__ volatile("isb\nmrs %0, cntpct_el0" : "=r"(now));
    return (uint32_t)now;
#else
    uint32_t now, upper;
    __asm__ volatile("isb\nmrrc p15, 0, %0, %1, c14" : "=r"(now), "=r"(upper));
    return now;
#endif
}

static intptr_t open(const char *name, size_t length, intptr_t how) {
    intptr_t words[3];
    words[0] = (intptr_t)name;
    words[1] = how;
    words[2] = (intptr_t)length;
    return ask(OPEN, words);
}

/* Reads or writes, and says whether all bytes came or went. */
static int moved(intptr_t what, intptr_t file, void *place, size_t length) {
    intptr_t words[3];
    words[0] = file;
    words[1] = (intptr_t)place;
    words[2] = (intptr_t)length;
    return length == 0 || ask(what, words) == 0;
}

static void end(void) {
    /* (a machine of 32 bits gives the reason itself) */
    intptr_t reason[2] = {0x20026, 0};
    ask(CLOSE, &answers);
    ask(EXIT, sizeof reason[0] == 8 ? (void *)reason : (void *)reason[0]);
    for (;;) { }
}

/* Where each exception leads. */
void fault(void) {
    uint64_t answer[3] = {FAULTED, 0, 0};
    moved(WRITE, answers, answer, sizeof answer);
    end();
}

/* Whether the key's root came out. */
static uint64_t by_root(const uint32_t *numbers, const uint8_t *message, const uint8_t *signature) {
    const uint8_t *wanted = bytes + HBS_ROOT_PLACE(numbers[1]);
    uint64_t answer;
    size_t at;
    /* (where the key has no root, any bytes stand there) */
    if (numbers[1] < HBS_LMS_KEY_BYTES) wanted = prefix;
    for (at = 0; at < sizeof root; at++) root[at] = (uint8_t)~wanted[at];
    answer = hbs_root(bytes, numbers[1], message, numbers[2], signature, numbers[3], root);
    for (at = 0; at < sizeof root; at++) {
        if (root[at] != wanted[at]) return answer;
    }
    return 0;
}

/* The answer for a message in three pieces, the second of which is empty. */
static uint64_t in_pieces(const uint32_t *numbers, const uint8_t *message, const uint8_t *signature) {
    uint64_t answer = hbs_begin(&so_far, bytes, numbers[1], signature, numbers[3]);
    if (HBS_NUMBER(answer) != HBS_READY) return answer;
    hbs_add(&so_far, message, numbers[2] / 3);
    hbs_add(&so_far, message, 0);
    hbs_add(&so_far, message + numbers[2] / 3, numbers[2] - numbers[2] / 3);
    return hbs_end(&so_far, bytes, numbers[1], signature, numbers[3]);
}

/* How many calls refuse null in the place of each pointer. The case's own signature is valid. */
APART static uint64_t refused_nulls(const uint32_t *numbers, const uint8_t *message, const uint8_t *signature) {
    const size_t keys = numbers[1], messages = numbers[2], signatures = numbers[3];
    uint8_t *volatile at_0 = NULL;
    uint8_t *null = at_0;
    uint64_t count = (hbs_verify(null, keys, message, messages, signature, signatures) == HBS_NULL) +
                     (hbs_verify(bytes, keys, null, messages, signature, signatures) == HBS_NULL) +
                     (hbs_verify(bytes, keys, message, messages, null, signatures) == HBS_NULL) +
                     (hbs_root(null, keys, message, messages, signature, signatures, root) == HBS_NULL) +
                     (hbs_root(bytes, keys, null, messages, signature, signatures, root) == HBS_NULL) +
                     (hbs_root(bytes, keys, message, messages, null, signatures, root) == HBS_NULL) +
                     (hbs_root(bytes, keys, message, messages, signature, signatures, null) == HBS_NULL) +
                     (hbs_message_prefix(null, keys, signature, signatures, prefix) == HBS_NULL) +
                     (hbs_message_prefix(bytes, keys, null, signatures, prefix) == HBS_NULL) +
                     (hbs_message_prefix(bytes, keys, signature, signatures, null) == HBS_NULL) +
                     (hbs_verify_digest(null, keys, signature, signatures, root) == HBS_NULL) +
                     (hbs_verify_digest(bytes, keys, null, signatures, root) == HBS_NULL) +
                     (hbs_verify_digest(bytes, keys, signature, signatures, null) == HBS_NULL) +
                     (hbs_begin((hbs_message *)null, bytes, keys, signature, signatures) == HBS_NULL) +
                     (hbs_begin(&so_far, null, keys, signature, signatures) == HBS_NULL) +
                     (hbs_begin(&so_far, bytes, keys, null, signatures) == HBS_NULL) +
                     (hbs_end((const hbs_message *)null, bytes, keys, signature, signatures) == HBS_NULL) +
                     (hbs_end(&so_far, null, keys, signature, signatures) == HBS_NULL) +
                     (hbs_end(&so_far, bytes, keys, null, signatures) == HBS_NULL);
    if (hbs_begin(&so_far, bytes, keys, signature, signatures) != HBS_READY) return 0;
    hbs_add(&so_far, message, messages);
    hbs_add(&so_far, null, 0);
    if (hbs_end(&so_far, bytes, keys, signature, signatures) != HBS_VERIFIED) return 0;
    hbs_add(&so_far, null, 1);
    return count + (hbs_end(&so_far, bytes, keys, signature, signatures) == HBS_CHANGED);
}

/* The answer for a message that begins at address 0, as hbs_verify.h says: its first byte is added as a copy. */
APART static uint64_t from_address_0(const uint32_t *numbers, const uint8_t *signature) {
    volatile uintptr_t at = 0;
    const uint8_t first = *(volatile uint8_t *)at;
    uint64_t answer = hbs_begin(&so_far, bytes, numbers[1], signature, numbers[3]);
    if (HBS_NUMBER(answer) != HBS_READY) return answer;
    hbs_add(&so_far, &first, 1);
    hbs_add(&so_far, (const uint8_t *)(at + 1), numbers[2] - 1);
    return hbs_end(&so_far, bytes, numbers[1], signature, numbers[3]);
}

/*
 * A number from an odd address, loaded as the compiler wouldn't where the processor mayn't. On RISC-V, whose accesses
 * tests/support/boot_aligned.c looks at, also one from below the stack pointer.
 */
APART static uint64_t unaligned(void) {
    const uintptr_t at = (uintptr_t)bytes;
    uint32_t number;
#if defined(__riscv)
    __asm__ volatile("lw %0, 0(%1)\n\tlw zero, -16(sp)" : "=r"(number) : "r"(at) : "memory");
#elif defined(__aarch64__)
    __asm__ volatile("ldr %w0, [%1]" : "=r"(number) : "r"(at) : "memory");
#else
    __asm__ volatile("ldr %0, [%1]" : "=r"(number) : "r"(at) : "memory");
#endif
    return number;
}

static uint64_t called(const uint32_t *numbers) {
    const uint8_t *message = bytes + numbers[1], *signature = message + numbers[2];
    switch (numbers[0] % MEASURED) {
    case VERIFY: return hbs_verify(bytes, numbers[1], message, numbers[2], signature, numbers[3]);
    case PREFIX: return hbs_message_prefix(bytes, numbers[1], signature, numbers[3], prefix);
    case DIGEST: return hbs_verify_digest(bytes, numbers[1], signature, numbers[3], message);
    case ROOT: return by_root(numbers, message, signature);
    case NULLS: return refused_nulls(numbers, message, signature);
    case AT_0: return from_address_0(numbers, signature);
    case UNALIGNED: return unaligned();
    default: return in_pieces(numbers, message, signature);
    }
}

/* The answer to a case, and the bytes of the painted stack that are written over. */
static uint64_t measured(const uint32_t *numbers, uint64_t *taken) {
    volatile uint32_t here = PAINT;
    volatile uint32_t *painted = &here - PAINTED - CALLER;
    uint64_t answer;
    size_t at, kept = 0;
    for (at = 0; at < PAINTED; at++) painted[at] = PAINT;
    answer = called(numbers);
    while (kept < PAINTED && painted[kept] == PAINT) kept++;
    *taken = (PAINTED + CALLER - kept) * sizeof *painted;
    return answer;
}

static void answer_case(const uint32_t *numbers, uint64_t *answer) {
    const uint32_t begin = ticks();
    answer[1] = 0;
    answer[0] = numbers[0] >= MEASURED ? measured(numbers, &answer[1]) : called(numbers);
    answer[2] = ticks() - begin;
}

void start(void) {
    uint32_t numbers[4];
    uint64_t answer[3];
    intptr_t cases = open("cases", 5, 1);
    answers = open("answers", 7, 5);
    while (moved(READ, cases, numbers, sizeof numbers) &&
           (size_t)numbers[1] + numbers[2] + numbers[3] <= sizeof room - 1 &&
           moved(READ, cases, bytes, (size_t)numbers[1] + numbers[2] + numbers[3])) {
        answer_case(numbers, answer);
        moved(WRITE, answers, answer, sizeof answer);
    }
    end();
}
