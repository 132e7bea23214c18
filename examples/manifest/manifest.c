#include "manifest.h"

static const uint8_t HEAD[8] = {'H', 'B', 'S', 'M', 'A', 'N', '0', '1'};

enum { PRODUCT = 8, VERSION = 32, LENGTH = 40, DIGEST = 48 };

static uint64_t number(const uint8_t *at) {
    uint64_t number = 0;
    for (size_t i = 0; i < 8; i++) number = number << 8 | at[i];
    return number;
}

/* Whether any of some bytes differ, in the same time for each answer. */
static int differs(const uint8_t *one, const uint8_t *other, size_t count) {
    uint8_t difference = 0;
    for (size_t i = 0; i < count; i++) difference |= (uint8_t)(one[i] ^ other[i]);
    return difference != 0;
}

/* Whether a field has this name, with zeros behind it. */
static int is_product(const uint8_t *field, const char *name) {
    for (size_t i = 0; i < MANIFEST_PRODUCT_BYTES; i++) {
        if (field[i] != (uint8_t)*name) return 0;
        if (*name) name++;
    }
    return *name == '\0';
}

uint64_t manifest_verify(manifest *it, const char *product, uint64_t least_version, const uint8_t *public_key,
                         size_t public_key_length, const uint8_t bytes[MANIFEST_BYTES], const uint8_t *signature,
                         size_t signature_length) {
    const uint64_t answer = hbs_verify(public_key, public_key_length, bytes, MANIFEST_BYTES, signature,
                                       signature_length);
    if (answer != HBS_VERIFIED) return answer;
    if (differs(bytes, HEAD, sizeof HEAD)) return MANIFEST_MALFORMED;
    if (!is_product(bytes + PRODUCT, product)) return MANIFEST_OTHER_PRODUCT;
    if (number(bytes + VERSION) < least_version) return MANIFEST_OLD;
    it->version = number(bytes + VERSION);
    it->length = number(bytes + LENGTH);
    for (size_t i = 0; i < sizeof it->digest; i++) it->digest[i] = bytes[DIGEST + i];
    return HBS_VERIFIED;
}

int manifest_has(const manifest *it, uint64_t length, const uint8_t digest[HBS_DIGEST_BYTES]) {
    return length == it->length && !differs(digest, it->digest, sizeof it->digest);
}
