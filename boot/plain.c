/*
 * The formulas of RFC 8554 and RFC 8391 in plain C, with the two verifying calls of include/hbs_verify.h. Nothing of it
 * is proved, and nothing but boot/bench uses it, which compares times and answers with it.
 */
#include "hbs_verify.h"
#include "sha256.h"

/* What is signed: a message, or its digest alone. */
typedef struct { const uint8_t *message; size_t length; const uint8_t *digest; } text;

/* The digest of a text after what a hash has taken. */
static void digest_of(sha256 *hash, const text *it, uint8_t *digest) {
    if (it->digest) {
        memcpy(digest, it->digest, HBS_DIGEST_BYTES);
    } else {
        add(hash, it->message, it->length);
        finish(hash, digest);
    }
}

static uint64_t refused(uint32_t which, size_t detail) {
    return (uint64_t)(detail > UINT32_MAX ? UINT32_MAX : detail) << 32 | which;
}

/* RFC 8554 3.1.3 */
static unsigned coef(const uint8_t *data, unsigned i, unsigned width) {
    unsigned at = i * width;
    return data[at / 8] >> (8 - width - at % 8) & ((1u << width) - 1);
}

/* A digest and its checksum (RFC 8554 4.4, RFC 8391 3.1.5). */
static void with_checksum(uint8_t *out, const uint8_t *digest, unsigned width, unsigned shift) {
    unsigned sum = 0;
    for (unsigned i = 0; i < 256 / width; i++) sum += (1u << width) - 1 - coef(digest, i, width);
    sum <<= shift;
    memcpy(out, digest, 32);
    out[32] = (uint8_t)(sum >> 8);
    out[33] = (uint8_t)sum;
}

/* ---- LMS */

typedef struct { unsigned width, chains, shift; } ots_type;

static int ots_of(uint32_t code, ots_type *type) {
    static const ots_type TYPES[4] = {{1, 265, 7}, {2, 133, 6}, {4, 67, 4}, {8, 34, 0}};
    if (code < 1 || code > 4) return 0;
    *type = TYPES[code - 1];
    return 1;
}

static int height_of(uint32_t code, unsigned *height) {
    if (code < 5 || code > 9) return 0;
    *height = 5 * (code - 4);
    return 1;
}

typedef struct { const uint8_t *begin; size_t length, place; } cursor;

typedef struct {
    uint32_t index, tree_code, ots_code;
    ots_type ots;
    unsigned height;
    const uint8_t *begin, *randomizer, *values, *path;
} lms_signature;

/* A code or a number at a cursor. */
static int take(cursor *from, uint32_t *value, uint64_t *fault) {
    if (from->length - from->place < 4) {
        *fault = refused(HBS_TRUNCATED, from->place);
        return 0;
    }
    *value = number(from->begin + from->place);
    from->place += 4;
    return 1;
}

static int take_values(cursor *from, size_t count, const uint8_t **values, uint64_t *fault) {
    *values = from->begin + from->place;
    for (size_t i = 0; i < count; i++) {
        if (from->length - from->place < 32) {
            *fault = refused(HBS_TRUNCATED, from->place);
            return 0;
        }
        from->place += 32;
    }
    return 1;
}

/* RFC 8554 5.4.2 and 4.6 */
static int take_lms(cursor *from, lms_signature *into, uint64_t *fault) {
    size_t start_at = from->place;
    into->begin = from->begin + start_at;
    if (!take(from, &into->index, fault) || !take(from, &into->ots_code, fault)) return 0;
    if (!ots_of(into->ots_code, &into->ots)) {
        *fault = refused(HBS_UNKNOWN_TYPE, from->place - 4);
        return 0;
    }
    if (!take_values(from, 1, &into->randomizer, fault)) return 0;
    if (!take_values(from, into->ots.chains, &into->values, fault)) return 0;
    if (!take(from, &into->tree_code, fault)) return 0;
    if (!height_of(into->tree_code, &into->height)) {
        *fault = refused(HBS_UNKNOWN_TYPE, from->place - 4);
        return 0;
    }
    if (into->index >> into->height != 0) {
        *fault = refused(HBS_LEAF_OUT_OF_RANGE, start_at);
        return 0;
    }
    return take_values(from, into->height, &into->path, fault);
}

static int key_of_lms(cursor *from, uint64_t *fault) {
    uint32_t code;
    unsigned height;
    ots_type ots;
    if (!take(from, &code, fault)) return 0;
    if (!height_of(code, &height)) {
        *fault = refused(HBS_UNKNOWN_TYPE, from->place - 4);
        return 0;
    }
    if (!take(from, &code, fault)) return 0;
    if (!ots_of(code, &ots)) {
        *fault = refused(HBS_UNKNOWN_TYPE, from->place - 4);
        return 0;
    }
    return 1;
}

/* Chain i of leaf q, from a digit on (RFC 8554 4.6, step 3). */
static void climb_lms(const uint8_t *identifier, uint32_t index, unsigned chain, unsigned digit, unsigned last,
                      const uint8_t *value, uint8_t *end) {
    uint8_t block[64] = {0};
    memcpy(block, identifier, 16);
    put(block + 16, index);
    block[20] = (uint8_t)(chain >> 8);
    block[21] = (uint8_t)chain;
    memcpy(block + 23, value, 32);
    block[55] = 0x80;
    block[62] = 55 * 8 >> 8;
    block[63] = 55 * 8 & 255;
    for (; digit < last; digit++) {
        sha256 hash;
        start(&hash);
        block[22] = (uint8_t)digit;
        compress(hash.state, block);
        for (int i = 0; i < 8; i++) put(block + 23 + 4 * i, hash.state[i]);
    }
    memcpy(end, block + 23, 32);
}

static void begin_lms(sha256 *hash, const uint8_t *identifier, uint32_t which, uint8_t mark) {
    uint8_t head[22];
    memcpy(head, identifier, 16);
    put(head + 16, which);
    head[20] = head[21] = mark;
    start(hash);
    add(hash, head, sizeof head);
}

/* RFC 8554 5.4.2 */
static uint64_t judge_lms(const uint8_t *key, const lms_signature *it, const text *signed_text, uint32_t level) {
    const uint8_t *identifier = key + 8;
    uint8_t digest[34], node[32];
    sha256 hash, ends;
    uint32_t at;
    if (number(key) != it->tree_code || number(key + 4) != it->ots_code) return refused(HBS_TYPE_MISMATCH, level);
    begin_lms(&hash, identifier, it->index, 0x81);
    add(&hash, it->randomizer, 32);
    digest_of(&hash, signed_text, node);
    with_checksum(digest, node, it->ots.width, it->ots.shift);
    begin_lms(&ends, identifier, it->index, 0x80);
    for (unsigned i = 0; i < it->ots.chains; i++) {
        climb_lms(identifier, it->index, i, coef(digest, i, it->ots.width), (1u << it->ots.width) - 1,
                  it->values + 32 * i, node);
        add(&ends, node, 32);
    }
    finish(&ends, node);
    at = ((uint32_t)1 << it->height) + it->index;
    begin_lms(&hash, identifier, at, 0x82);
    add(&hash, node, 32);
    finish(&hash, node);
    for (unsigned i = 0; i < it->height; i++) {
        const uint8_t *other = it->path + 32 * i;
        begin_lms(&hash, identifier, at / 2, 0x83);
        add(&hash, at % 2 ? other : node, 32);
        add(&hash, at % 2 ? node : other, 32);
        finish(&hash, node);
        at /= 2;
    }
    return memcmp(node, key + 24, 32) == 0 ? HBS_VERIFIED : refused(HBS_ROOT_MISMATCH, level);
}

static uint64_t verify_lms(const uint8_t *key, const text *signed_text, cursor from) {
    cursor in_key = {key, HBS_LMS_KEY_BYTES, 0};
    lms_signature it;
    uint64_t fault;
    if (!key_of_lms(&in_key, &fault) || !take_lms(&from, &it, &fault)) return fault;
    if (from.place != from.length) return refused(HBS_TRAILING, from.place);
    return judge_lms(key, &it, signed_text, 0);
}

/* RFC 8554 6.3 */
static uint64_t verify_hss(const uint8_t *key, const text *signed_text, cursor from) {
    cursor in_key = {key, HBS_HSS_KEY_BYTES, 0};
    lms_signature levels[8];
    uint32_t count, below;
    uint64_t fault;
    if (!take(&in_key, &count, &fault)) return fault;
    if (count < 1 || count > 8) return refused(HBS_LEVEL_COUNT, 0);
    if (!key_of_lms(&in_key, &fault) || !take(&from, &below, &fault)) return fault;
    if (below > 7) return refused(HBS_LEVEL_COUNT, 0);
    for (uint32_t i = 0; i <= below; i++) {
        if (!take_lms(&from, &levels[i], &fault)) return fault;
        if (i == below) break;
        if (!key_of_lms(&from, &fault)) return fault;
        if (from.length - from.place < 16) return refused(HBS_TRUNCATED, from.place);
        from.place += 16;
        if (from.length - from.place < 32) return refused(HBS_TRUNCATED, from.place);
        from.place += 32;
    }
    if (from.place != from.length) return refused(HBS_TRAILING, from.place);
    if (below + 1 != count) return refused(HBS_LEVEL_MISMATCH, 0);
    key += 4;
    for (uint32_t i = 0; i < below; i++) {
        text next = {levels[i + 1].begin - HBS_LMS_KEY_BYTES, HBS_LMS_KEY_BYTES, NULL};
        fault = judge_lms(key, &levels[i], &next, i);
        if (fault != HBS_VERIFIED) return fault;
        key = next.message;
    }
    return judge_lms(key, &levels[below], signed_text, below);
}

/* ---- XMSS */

/* An address's last four words after its type (RFC 8391 2.5), layer and tree being 0. */
typedef struct { uint32_t type, words[4]; } address;

static void keyed(uint32_t which, const uint8_t *key, const uint8_t *data, size_t length, uint8_t *out) {
    uint8_t head[32] = {0};
    sha256 hash;
    put(head + 28, which);
    start(&hash);
    add(&hash, head, 32);
    add(&hash, key, 32);
    add(&hash, data, length);
    finish(&hash, out);
}

/* PRF of an address (RFC 8391 5.1). */
static void mask(const uint8_t *seed, const address *at, uint32_t which, uint8_t *out) {
    uint8_t data[32] = {0};
    put(data + 12, at->type);
    for (int i = 0; i < 3; i++) put(data + 16 + 4 * i, at->words[i]);
    put(data + 28, which);
    keyed(3, seed, data, 32, out);
}

static void xor_into(uint8_t *value, const uint8_t *other) {
    for (int i = 0; i < 32; i++) value[i] ^= other[i];
}

/* RAND_HASH (RFC 8391 4.1.4) */
static void join(const uint8_t *seed, const address *at, const uint8_t *left, const uint8_t *right, uint8_t *out) {
    uint8_t key[32], masks[64], both[64];
    mask(seed, at, 0, key);
    mask(seed, at, 1, masks);
    mask(seed, at, 2, masks + 32);
    memcpy(both, left, 32);
    memcpy(both + 32, right, 32);
    xor_into(both, masks);
    xor_into(both + 32, masks + 32);
    keyed(1, key, both, 64, out);
}

static uint64_t verify_xmss(const uint8_t *key, const text *signed_text, cursor from) {
    static const unsigned HEIGHTS[3] = {10, 16, 20};
    cursor in_key = {key, HBS_XMSS_KEY_BYTES, 0};
    const uint8_t *root = key + 4, *seed = key + 36, *randomizer, *values, *path;
    uint8_t ends[67][32], digest[34], head[128] = {0}, node[32];
    uint32_t code, index;
    unsigned height, count;
    uint64_t fault;
    sha256 hash;
    if (!take(&in_key, &code, &fault)) return fault;
    if (code < 1 || code > 3) return refused(HBS_UNKNOWN_TYPE, 0);
    height = HEIGHTS[code - 1];
    if (!take(&from, &index, &fault)) return fault;
    if (index >> height != 0) return refused(HBS_LEAF_OUT_OF_RANGE, 0);
    if (!take_values(&from, 1, &randomizer, &fault) || !take_values(&from, 67, &values, &fault)) return fault;
    if (!take_values(&from, height, &path, &fault)) return fault;
    if (from.place != from.length) return refused(HBS_TRAILING, from.place);
    /* H_msg (RFC 8391 5.1) */
    put(head + 28, 2);
    memcpy(head + 32, randomizer, 32);
    memcpy(head + 64, root, 32);
    put(head + 124, index);
    start(&hash);
    add(&hash, head, 128);
    digest_of(&hash, signed_text, node);
    with_checksum(digest, node, 4, 4);
    for (unsigned i = 0; i < 67; i++) {
        address at = {0, {index, i, 0, 0}};
        memcpy(ends[i], values + 32 * i, 32);
        for (at.words[2] = coef(digest, i, 4); at.words[2] < 15; at.words[2]++) {
            uint8_t step_key[32], step_mask[32];
            mask(seed, &at, 0, step_key);
            mask(seed, &at, 1, step_mask);
            xor_into(ends[i], step_mask);
            keyed(0, step_key, ends[i], 32, ends[i]);
        }
    }
    /* the L-tree (RFC 8391 4.1.5) */
    count = 67;
    for (uint32_t level = 0; count > 1; level++) {
        for (unsigned i = 0; i < count / 2; i++) {
            address at = {1, {index, level, i, 0}};
            join(seed, &at, ends[2 * i], ends[2 * i + 1], node);
            memcpy(ends[i], node, 32);
        }
        if (count % 2) memcpy(ends[count / 2], ends[count - 1], 32);
        count = (count + 1) / 2;
    }
    memcpy(node, ends[0], 32);
    for (uint32_t level = 0; level < height; level++) {
        address at = {2, {0, level, index >> (level + 1), 0}};
        const uint8_t *other = path + 32 * level;
        int is_right = index >> level & 1;
        join(seed, &at, is_right ? other : node, is_right ? node : other, node);
    }
    return memcmp(node, root, 32) == 0 ? HBS_VERIFIED : refused(HBS_ROOT_MISMATCH, 0);
}

static uint64_t verify(const uint8_t *key, size_t key_length, const text *signed_text, cursor from) {
    switch (key_length) {
    case HBS_LMS_KEY_BYTES:
        return verify_lms(key, signed_text, from);
    case HBS_HSS_KEY_BYTES:
        return verify_hss(key, signed_text, from);
    case HBS_XMSS_KEY_BYTES:
        return verify_xmss(key, signed_text, from);
    default:
        return refused(HBS_KEY_LENGTH, key_length);
    }
}

uint64_t hbs_verify(const uint8_t *public_key, size_t public_key_length,
                    const uint8_t *message, size_t message_length,
                    const uint8_t *signature, size_t signature_length) {
    text it = {message, message_length, NULL};
    cursor from = {signature, signature_length, 0};
    return verify(public_key, public_key_length, &it, from);
}

uint64_t hbs_verify_digest(const uint8_t *public_key, size_t public_key_length,
                           const uint8_t *signature, size_t signature_length,
                           const uint8_t *digest) {
    text it = {NULL, 0, digest};
    cursor from = {signature, signature_length, 0};
    return verify(public_key, public_key_length, &it, from);
}
