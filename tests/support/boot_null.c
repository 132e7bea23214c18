/*
 * What the calls of include/hbs_verify.h answer for null pointers where address 0 is memory:
 *
 *     boot_null PUBLIC MESSAGE SIGNATURE
 *
 * The signature is valid. Each part lies at address 0, then at 4096 too, and then there alone. It prints each wrong
 * answer, and how many were right. Where the machine maps no memory at address 0 the status is 3.
 */
#define _DEFAULT_SOURCE
#include <stdio.h>
#include <stdlib.h>
#include <string.h>
#include <sys/mman.h>

#include "../../boot/sha256.h"
#include "hbs_verify.h"

#define PAGE 4096u
#define LOW_BYTES (32 * PAGE)
#define ROOM (8 * PAGE)

enum { KEY, MESSAGE, SIGNATURE, DIGEST, PARTS };

typedef struct {
    uint8_t bytes[ROOM];
    size_t length;
} content;

static content all[PARTS];
static uint8_t prefix[HBS_PREFIX_BYTES], root[HBS_ROOT_BYTES];
static int right, wrong;

/* An address of the first pages, which the compiler doesn't know. */
static uint8_t *low(uintptr_t address) {
    volatile uintptr_t at = address;
    return (uint8_t *)at;
}

static void fill(const uint8_t *from, size_t count, uintptr_t address) {
    volatile uint8_t *to = low(address);
    for (size_t i = 0; i < count; i++) to[i] = from[i];
}

static void wanted(const char *what, uint64_t answer, uint64_t expected) {
    if (answer == expected) {
        right++;
        return;
    }
    wrong++;
    printf("%s: %llx\n", what, (unsigned long long)answer);
}

static void read_into(content *it, const char *path) {
    FILE *file = fopen(path, "rb");
    if (!file) {
        perror(path);
        exit(2);
    }
    it->length = fread(it->bytes, 1, sizeof it->bytes, file);
    fclose(file);
}

static uint64_t whole(const uint8_t *key, const uint8_t *message, const uint8_t *signature) {
    return hbs_verify(key, all[KEY].length, message, all[MESSAGE].length, signature, all[SIGNATURE].length);
}

static uint64_t root_of(const uint8_t *key, const uint8_t *message, const uint8_t *signature, uint8_t *to) {
    return hbs_root(key, all[KEY].length, message, all[MESSAGE].length, signature, all[SIGNATURE].length, to);
}

static uint64_t by_digest(const uint8_t *key, const uint8_t *signature, const uint8_t *digest) {
    return hbs_verify_digest(key, all[KEY].length, signature, all[SIGNATURE].length, digest);
}

/* The calls with null in the place of each part, one after the other. */
static void each_part_null(void) {
    const uint8_t *key = all[KEY].bytes, *message = all[MESSAGE].bytes, *signature = all[SIGNATURE].bytes;
    const uint8_t *digest = all[DIGEST].bytes, *null = low(0);
    wanted("hbs_verify, key", whole(null, message, signature), HBS_NULL);
    wanted("hbs_verify, message", whole(key, null, signature), HBS_NULL);
    wanted("hbs_verify, signature", whole(key, message, null), HBS_NULL);
    wanted("hbs_root, key", root_of(null, message, signature, root), HBS_NULL);
    wanted("hbs_root, message", root_of(key, null, signature, root), HBS_NULL);
    wanted("hbs_root, signature", root_of(key, message, null, root), HBS_NULL);
    wanted("hbs_root, root", root_of(key, message, signature, low(0)), HBS_NULL);
    wanted("hbs_verify_digest, key", by_digest(null, signature, digest), HBS_NULL);
    wanted("hbs_verify_digest, signature", by_digest(key, null, digest), HBS_NULL);
    wanted("hbs_verify_digest, digest", by_digest(key, signature, null), HBS_NULL);
    wanted("hbs_message_prefix, key",
           hbs_message_prefix(null, all[KEY].length, signature, all[SIGNATURE].length, prefix), HBS_NULL);
    wanted("hbs_message_prefix, signature",
           hbs_message_prefix(key, all[KEY].length, null, all[SIGNATURE].length, prefix), HBS_NULL);
    wanted("hbs_message_prefix, prefix",
           hbs_message_prefix(key, all[KEY].length, signature, all[SIGNATURE].length, low(0)), HBS_NULL);
}

/* The calls for a message in pieces, with null in the place of each argument. */
static void pieces_null(void) {
    const uint8_t *key = all[KEY].bytes, *signature = all[SIGNATURE].bytes, *null = low(0);
    const size_t keys = all[KEY].length, signatures = all[SIGNATURE].length;
    hbs_message it;
    wanted("hbs_begin, message", hbs_begin((hbs_message *)low(0), key, keys, signature, signatures), HBS_NULL);
    wanted("hbs_begin, key", hbs_begin(&it, null, keys, signature, signatures), HBS_NULL);
    wanted("hbs_end after it", hbs_end(&it, key, keys, signature, signatures), HBS_CHANGED);
    wanted("hbs_begin, signature", hbs_begin(&it, key, keys, null, signatures), HBS_NULL);
    wanted("hbs_begin", hbs_begin(&it, key, keys, signature, signatures), HBS_READY);
    wanted("hbs_end, message", hbs_end((hbs_message *)low(0), key, keys, signature, signatures), HBS_NULL);
    wanted("hbs_end, key", hbs_end(&it, null, keys, signature, signatures), HBS_NULL);
    wanted("hbs_end, signature", hbs_end(&it, key, keys, null, signatures), HBS_NULL);
    hbs_add((hbs_message *)low(0), key, keys);
    hbs_add(&it, all[MESSAGE].bytes, all[MESSAGE].length);
    hbs_add(&it, null, 0);
    wanted("hbs_add of no bytes", hbs_end(&it, key, keys, signature, signatures), HBS_VERIFIED);
    hbs_add(&it, null, 1);
    wanted("hbs_add of a null piece", hbs_end(&it, key, keys, signature, signatures), HBS_CHANGED);
}

/* A message at address 0, as hbs_verify.h says: its first byte by a copy. */
static void from_address_0(void) {
    const uint8_t first = *(volatile uint8_t *)low(0);
    hbs_message it;
    wanted("hbs_begin for address 0",
           hbs_begin(&it, all[KEY].bytes, all[KEY].length, all[SIGNATURE].bytes, all[SIGNATURE].length), HBS_READY);
    hbs_add(&it, &first, 1);
    hbs_add(&it, low(1), all[MESSAGE].length - 1);
    wanted("a message at address 0",
           hbs_end(&it, all[KEY].bytes, all[KEY].length, all[SIGNATURE].bytes, all[SIGNATURE].length), HBS_VERIFIED);
}

/* Null with a length of 0 is a message of no bytes, and no key or signature. */
static void of_no_bytes(void) {
    const uint8_t *key = all[KEY].bytes, *message = all[MESSAGE].bytes, *signature = all[SIGNATURE].bytes;
    const size_t keys = all[KEY].length, signatures = all[SIGNATURE].length;
    const uint64_t empty = hbs_verify(key, keys, message, 0, signature, signatures);
    wanted("an empty message", HBS_NUMBER(empty), HBS_ROOT_MISMATCH);
    wanted("an empty message at address 0", hbs_verify(key, keys, low(0), 0, signature, signatures), empty);
    wanted("no key", hbs_verify(low(0), 0, message, all[MESSAGE].length, signature, signatures), HBS_NULL);
    wanted("no signature", hbs_verify(key, keys, message, all[MESSAGE].length, low(0), 0), HBS_NULL);
}

int main(int count, char **words) {
    sha256 hash;
    if (count != 4) return 2;
    for (int i = KEY; i <= SIGNATURE; i++) read_into(&all[i], words[i + 1]);
    if (mmap(low(0), LOW_BYTES, PROT_READ | PROT_WRITE, MAP_PRIVATE | MAP_ANONYMOUS | MAP_FIXED, -1, 0) == MAP_FAILED) {
        return 3;
    }
    wanted("the parts themselves", whole(all[KEY].bytes, all[MESSAGE].bytes, all[SIGNATURE].bytes), HBS_VERIFIED);
    start(&hash);
    add(&hash, prefix, (size_t)HBS_DETAIL(hbs_message_prefix(all[KEY].bytes, all[KEY].length, all[SIGNATURE].bytes,
                                                             all[SIGNATURE].length, prefix)));
    add(&hash, all[MESSAGE].bytes, all[MESSAGE].length);
    finish(&hash, all[DIGEST].bytes);
    all[DIGEST].length = HBS_DIGEST_BYTES;
    wanted("by the digest", by_digest(all[KEY].bytes, all[SIGNATURE].bytes, all[DIGEST].bytes), HBS_VERIFIED);
    for (int i = 0; i < PARTS; i++) {
        memset(low(1), 0xee, LOW_BYTES - 1);
        *(volatile uint8_t *)low(0) = 0xee;
        fill(all[i].bytes, all[i].length, 0);
        each_part_null();
        pieces_null();
        if (i == MESSAGE) from_address_0();
        fill(all[i].bytes, all[i].length, PAGE);
        each_part_null();
        *(volatile uint8_t *)low(0) = 0xee;
        each_part_null();
    }
    of_no_bytes();
    printf("%d right, %d wrong\n", right, wrong);
    return wrong != 0;
}
