/*
 * Callers of include/hbs_verify.h in whose runs tests/support/boot_skips.c skips instructions, on bare aarch64. Each
 * takes the key, the message and the signature, and ends in `booted` where it would start the message, and else in
 * `halted`. The linker puts them into a section of their own.
 */
#include "hbs_verify.h"

#define APART __attribute__((noinline, used, section("caller")))

typedef struct {
    const uint8_t *bytes;
    uint64_t length;
} part;

enum { KEY, MESSAGE, SIGNATURE };

/* What the library calls: loops, whose instructions are skipped as well. */
void *memcpy(void *restrict to, const void *restrict from, size_t count) {
    for (size_t i = 0; i < count; i++) ((uint8_t *)to)[i] = ((const uint8_t *)from)[i];
    return to;
}

void *memmove(void *to, const void *from, size_t count) {
    if ((uintptr_t)to <= (uintptr_t)from) return memcpy(to, from, count);
    for (size_t i = count; i > 0; i--) ((uint8_t *)to)[i - 1] = ((const uint8_t *)from)[i - 1];
    return to;
}

void *memset(void *to, int value, size_t count) {
    for (size_t i = 0; i < count; i++) ((uint8_t *)to)[i] = (uint8_t)value;
    return to;
}

APART void booted(void) {
    for (;;) __asm__ volatile("");
}

APART void halted(void) {
    for (;;) __asm__ volatile("");
}

static inline uint64_t verify(const part *it) {
    return hbs_verify(it[KEY].bytes, it[KEY].length, it[MESSAGE].bytes, it[MESSAGE].length, it[SIGNATURE].bytes,
                      it[SIGNATURE].length);
}

/* One call and one comparison. */
APART void once(const part *it) {
    if (verify(it) == HBS_VERIFIED) booted();
    halted();
}

/* One call, whose answer is compared twice. */
APART void compared_twice(const part *it) {
    volatile uint64_t answer = verify(it);
    if (answer == HBS_VERIFIED && answer == HBS_VERIFIED) booted();
    halted();
}

/* Two calls, and a comparison of each answer. */
APART void called_twice(const part *it) {
    if (verify(it) == HBS_VERIFIED && verify(it) == HBS_VERIFIED) booted();
    halted();
}

/* The same by the message's digest, which is given in the message's place. */
static inline uint64_t verify_digest(const part *it) {
    return hbs_verify_digest(it[KEY].bytes, it[KEY].length, it[SIGNATURE].bytes, it[SIGNATURE].length,
                             it[MESSAGE].bytes);
}

APART void digest_once(const part *it) {
    if (verify_digest(it) == HBS_VERIFIED) booted();
    halted();
}

APART void digest_twice(const part *it) {
    if (verify_digest(it) == HBS_VERIFIED && verify_digest(it) == HBS_VERIFIED) booted();
    halted();
}

/* The same by a message in one piece. */
static hbs_message pieces;

static inline uint64_t end(const part *it) {
    return hbs_end(&pieces, it[KEY].bytes, it[KEY].length, it[SIGNATURE].bytes, it[SIGNATURE].length);
}

static inline void begin(const part *it) {
    if (hbs_begin(&pieces, it[KEY].bytes, it[KEY].length, it[SIGNATURE].bytes, it[SIGNATURE].length) != HBS_READY)
        halted();
    hbs_add(&pieces, it[MESSAGE].bytes, it[MESSAGE].length);
}

APART void end_once(const part *it) {
    begin(it);
    if (end(it) == HBS_VERIFIED) booted();
    halted();
}

APART void end_twice(const part *it) {
    begin(it);
    if (end(it) == HBS_VERIFIED && end(it) == HBS_VERIFIED) booted();
    halted();
}

/* Read again after a call, which a skip may let return with wrong registers. */
static const part *volatile given;
static volatile uint8_t root[HBS_ROOT_BYTES];

static inline const uint8_t *own_root(void) {
    const part *it = given;
    return it[KEY].bytes + HBS_ROOT_PLACE(it[KEY].length);
}

static inline int differs(void) {
    const uint8_t *own = own_root();
    unsigned difference = 0;
    for (size_t i = 0; i < HBS_ROOT_BYTES; i++) difference |= (unsigned)(root[i] ^ own[i]);
    return difference != 0;
}

/* The root, in a room that was filled with other bytes, compared twice. */
APART void by_root(const part *it) {
    given = it;
    for (size_t i = 0; i < sizeof root; i++) root[i] = (uint8_t)~own_root()[i];
    (void)hbs_root(it[KEY].bytes, it[KEY].length, it[MESSAGE].bytes, it[MESSAGE].length, it[SIGNATURE].bytes,
                   it[SIGNATURE].length, (uint8_t *)root);
    if (!differs() && !differs()) booted();
    halted();
}
