/*
 * Compares the answers of three verifiers for changed triples of a public key, a message and a signature: the library
 * for boot loaders, the verifiers of the program, and boot/plain.c.
 *
 *     boot_triples COUNT (PUBLIC MESSAGE SIGNATURE) ..
 *
 * A part ends where an unreadable page begins, begins where one ends, or has memory of its own size that the address
 * sanitizer watches. For each fifth triple the library also answers by the message's digest, for another fifth in
 * pieces, and for another one by the root. It prints how many triples had each number, and each triple whose answers
 * differ.
 */
#define _DEFAULT_SOURCE
#include <stdio.h>
#include <stdlib.h>
#include <string.h>
#include <sys/mman.h>

#include "../../boot/sha256.h"
#include "hbs_verify.h"

/* The program's verifiers, from an archive built for this test, and the one of boot/plain.c. */
uint64_t program_verify(const uint8_t *, size_t, const uint8_t *, size_t, const uint8_t *, size_t);
uint64_t plain_verify(const uint8_t *, size_t, const uint8_t *, size_t, const uint8_t *, size_t);

#define PAGE 4096
#define MOST_BYTES (20 * PAGE)
#define NUMBERS 16
#define BY_DIGEST 5

enum { KEY, MESSAGE, SIGNATURE, PARTS };

typedef struct {
    uint8_t *bytes;
    size_t length;
} content;

/* The pages for a part, between two unreadable ones, and memory of the part's own size. */
typedef struct {
    uint8_t *pages, *own;
} place;

static uint64_t state = 0x9e3779b97f4a7c15;

/* The next number of a fixed sequence (xorshift64*), below a bound. */
static size_t below(size_t bound) {
    state ^= state >> 12;
    state ^= state << 25;
    state ^= state >> 27;
    return (size_t)((state * 0x2545f4914f6cdd1d) >> 33) % bound;
}

static content content_of(const char *path) {
    FILE *file = fopen(path, "rb");
    content it = {malloc(MOST_BYTES), 0};
    if (!file || !it.bytes) {
        perror(path);
        exit(2);
    }
    it.length = fread(it.bytes, 1, MOST_BYTES, file);
    fclose(file);
    return it;
}

static place new_place(void) {
    place it = {NULL, NULL};
    uint8_t *all = mmap(NULL, MOST_BYTES + 2 * PAGE, PROT_NONE, MAP_PRIVATE | MAP_ANONYMOUS, -1, 0);
    if (all == MAP_FAILED || mprotect(all + PAGE, MOST_BYTES, PROT_READ | PROT_WRITE) != 0) exit(2);
    it.pages = all + PAGE;
    return it;
}

/* Puts a part where a read past an end, or one before its beginning, is caught. */
static content put_into(place *at, const content *it, size_t turn) {
    content placed = {at->pages, it->length};
    free(at->own);
    at->own = NULL;
    if (turn % 3 == 0) placed.bytes = at->pages + MOST_BYTES - it->length;
    if (turn % 3 == 2) {
        at->own = malloc(it->length);
        if (it->length > 0) placed.bytes = at->own;
    }
    memcpy(placed.bytes, it->bytes, it->length);
    return placed;
}

static void change_byte(content *it) {
    if (it->length > 0) it->bytes[below(it->length)] ^= (uint8_t)(1 + below(255));
}

/* Sets a field of four bytes to a small number, as codes, indexes and levels are. */
static void set_field(content *it) {
    if (it->length < 4) return;
    size_t at = below(4) ? below((it->length < 64 ? it->length : 64) / 4) * 4 : below(it->length / 4) * 4;
    memcpy(it->bytes + at, (const uint8_t[4]){0, 0, 0, (uint8_t)below(12)}, 4);
}

/* Cuts a part anywhere, or near its end. */
static void cut(content *it) {
    if (it->length == 0) return;
    it->length = below(2) ? below(it->length) : it->length - 1 - below(it->length < 64 ? it->length : 64);
}

static void lengthen(content *it) {
    for (size_t more = 1 + below(70); more > 0 && it->length < MOST_BYTES; more--) {
        it->bytes[it->length++] = (uint8_t)below(256);
    }
}

/* Changes a triple; a part may become another triple's. */
static void change(content *parts, const content *other) {
    size_t which = below(4) ? SIGNATURE : below(PARTS);
    switch (below(14)) {
    case 0:
        break;
    case 1:
        memcpy(parts[which].bytes, other[which].bytes, parts[which].length = other[which].length);
        break;
    case 2:
    case 10:
    case 11:
        cut(&parts[which]);
        break;
    case 3:
    case 12:
    case 13:
        lengthen(&parts[which]);
        break;
    case 4:
    case 5:
    case 6:
        set_field(&parts[which == MESSAGE ? KEY : which]);
        break;
    case 7:
        change_byte(&parts[KEY]);
        break;
    default:
        change_byte(&parts[which]);
        if (below(4) == 0) change_byte(&parts[SIGNATURE]);
    }
}

/* Whether an answer is a refusal before the message is hashed: all but other types and a wrong root are. */
static int is_early(uint64_t answer) {
    const uint64_t number = HBS_NUMBER(answer);
    return number != HBS_VERIFIED && number != HBS_TYPE_MISMATCH && number != HBS_ROOT_MISMATCH;
}

/*
 * The library's answer by the message's digest, or its refusal before the message is hashed. UINT64_MAX where a refusal
 * comes too early or too late. The prefix and the digest end where an unreadable page begins.
 */
static uint64_t by_digest(const content *it, uint8_t *end) {
    const content key = it[KEY], message = it[MESSAGE], signature = it[SIGNATURE];
    uint8_t *prefix = end - HBS_PREFIX_BYTES, *digest = end - HBS_DIGEST_BYTES;
    const uint64_t before = hbs_message_prefix(key.bytes, key.length, signature.bytes, signature.length, prefix);
    uint64_t answer;
    sha256 hash;
    if (HBS_NUMBER(before) != HBS_READY) return is_early(before) ? before : UINT64_MAX;
    start(&hash);
    add(&hash, prefix, (size_t)HBS_DETAIL(before));
    add(&hash, message.bytes, message.length);
    finish(&hash, digest);
    answer = hbs_verify_digest(key.bytes, key.length, signature.bytes, signature.length, digest);
    return is_early(answer) ? UINT64_MAX : answer;
}

/*
 * The library's answer for the message in pieces of changing lengths, or its refusal before any piece. UINT64_MAX where
 * a refusal comes too early or too late.
 */
static uint64_t in_pieces(const content *it, size_t turn) {
    const content key = it[KEY], message = it[MESSAGE], signature = it[SIGNATURE];
    hbs_message pieces;
    const uint64_t before = hbs_begin(&pieces, key.bytes, key.length, signature.bytes, signature.length);
    size_t added = 0;
    if (before != HBS_READY) return is_early(before) ? before : UINT64_MAX;
    while (added < message.length) {
        const size_t left = message.length - added, wanted = turn % 200;
        const size_t count = wanted == 0 || wanted > left ? left : wanted;
        hbs_add(&pieces, message.bytes + added, count);
        added += count;
        turn = turn * 7 + 3;
    }
    return hbs_end(&pieces, key.bytes, key.length, signature.bytes, signature.length);
}

/*
 * Whether the root that the library computes is the key's: 1 or 0, or -1 where its answer doesn't fit. It ends where an
 * unreadable page begins.
 */
static int has_own_root(const content *it, uint8_t *end) {
    const content key = it[KEY], message = it[MESSAGE], signature = it[SIGNATURE];
    const uint8_t *own = key.bytes + HBS_ROOT_PLACE(key.length);
    uint8_t *root = end - HBS_ROOT_BYTES;
    uint64_t answer;
    memset(root, 0xee, HBS_ROOT_BYTES);
    answer = hbs_root(key.bytes, key.length, message.bytes, message.length, signature.bytes, signature.length, root);
    if (answer == HBS_READY) return memcmp(root, own, HBS_ROOT_BYTES) == 0;
    for (size_t i = 0; i < HBS_ROOT_BYTES; i++) {
        if (root[i] != 0xee) return -1;
    }
    return answer == HBS_VERIFIED || HBS_NUMBER(answer) >= NUMBERS ? -1 : 0;
}

/* Gives a triple to each verifier, and prints answers that differ. */
static int differs(size_t turn, const content *it, uint8_t *end, size_t *seen) {
    const content key = it[KEY], message = it[MESSAGE], signature = it[SIGNATURE];
    const uint64_t library = hbs_verify(key.bytes, key.length, message.bytes, message.length, signature.bytes,
                                        signature.length);
    const uint64_t program = program_verify(key.bytes, key.length, message.bytes, message.length, signature.bytes,
                                            signature.length);
    const uint64_t plain = plain_verify(key.bytes, key.length, message.bytes, message.length, signature.bytes,
                                        signature.length);
    const uint64_t digest = turn % BY_DIGEST == 0 ? by_digest(it, end) : library;
    const uint64_t pieces = turn % BY_DIGEST == 2 ? in_pieces(it, turn) : library;
    const int own = turn % BY_DIGEST == 1 ? has_own_root(it, end) : library == HBS_VERIFIED;
    if (HBS_NUMBER(library) < NUMBERS) seen[HBS_NUMBER(library)]++;
    if (library == digest && library == pieces && library == program && library == plain &&
        own == (library == HBS_VERIFIED)) {
        return 0;
    }
    printf("triple %zu: the library %llx, by digest %llx, in pieces %llx, the program %llx, plain C %llx, root %d\n",
           turn, (unsigned long long)library, (unsigned long long)digest, (unsigned long long)pieces,
           (unsigned long long)program, (unsigned long long)plain, own);
    return 1;
}

int main(int count, char **words) {
    const size_t turns = count > 1 ? strtoul(words[1], NULL, 10) : 0;
    const size_t triples = count > 2 ? (size_t)(count - 2) / PARTS : 0;
    size_t seen[NUMBERS] = {0};
    content *all = calloc(triples + 1, PARTS * sizeof *all), changed[PARTS], given[PARTS];
    place places[PARTS], written = new_place();
    int differing = 0;
    if (triples == 0 || !all) return 2;
    for (size_t i = 0; i < PARTS * triples; i++) all[i] = content_of(words[2 + i]);
    for (size_t i = 0; i < PARTS; i++) {
        places[i] = new_place();
        changed[i].bytes = malloc(MOST_BYTES);
    }
    for (size_t turn = 0; turn < turns; turn++) {
        const content *triple = all + PARTS * below(triples), *other = all + PARTS * below(triples);
        for (size_t i = 0; i < PARTS; i++) {
            memcpy(changed[i].bytes, triple[i].bytes, changed[i].length = triple[i].length);
        }
        change(changed, other);
        for (size_t i = 0; i < PARTS; i++) given[i] = put_into(&places[i], &changed[i], turn);
        differing += differs(turn, given, written.pages + MOST_BYTES, seen);
    }
    for (size_t i = 0; i < NUMBERS; i++) {
        if (seen[i]) printf("%zu:%zu ", i, seen[i]);
    }
    printf("\n%d differ\n", differing);
    return differing != 0;
}
