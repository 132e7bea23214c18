/*
 * A signed manifest: what a loader verifies in an image's place. It says of which product and version the image is, and
 * has its length and its SHA-256, by whatever code or hardware the loader has for that.
 *
 *   bytes    what
 *    0 to  7 HBSMAN01
 *    8 to 31 the product in ASCII, with zeros behind it
 *   32 to 39 the version, greatest byte first
 *   40 to 47 the image's length, greatest byte first
 *   48 to 79 the image's SHA-256
 */
#ifndef MANIFEST_H
#define MANIFEST_H

#include "hbs_verify.h"

#define MANIFEST_BYTES 80
#define MANIFEST_PRODUCT_BYTES 24

/* Refusals beside those of hbs_verify. */
#define MANIFEST_MALFORMED 256
#define MANIFEST_OTHER_PRODUCT 257
#define MANIFEST_OLD 258

typedef struct {
    uint64_t version;
    uint64_t length;
    uint8_t digest[HBS_DIGEST_BYTES];
} manifest;

/*
 * HBS_VERIFIED exactly where the signature is valid for these bytes, and they are a manifest of `product`, of
 * `least_version` or later. Then `it` has what it says. Otherwise the first refusal, the signature's first, and `it` is
 * as it was. `product` has at most MANIFEST_PRODUCT_BYTES before its zero. Nobody else writes `bytes` meanwhile.
 */
HBS_MUST_CHECK uint64_t manifest_verify(manifest *it, const char *product, uint64_t least_version,
                                        const uint8_t *public_key, size_t public_key_length,
                                        const uint8_t bytes[MANIFEST_BYTES],
                                        const uint8_t *signature, size_t signature_length);

/* Whether an image of this length and SHA-256 is the manifest's. */
HBS_MUST_CHECK int manifest_has(const manifest *it, uint64_t length, const uint8_t digest[HBS_DIGEST_BYTES]);

#endif
