/*
 * Calls of include/hbs_verify.h, compiled by `-mabi=ms`, as for UEFI. Each has the other calling convention itself, so
 * that a program can take it in the place of the library's.
 */
#include "hbs_verify.h"

#define AS_LIBRARY __attribute__((sysv_abi))

AS_LIBRARY uint64_t ms_verify(const uint8_t *key, size_t keys, const uint8_t *message, size_t messages,
                              const uint8_t *signature, size_t signatures) {
    return hbs_verify(key, keys, message, messages, signature, signatures);
}

AS_LIBRARY uint64_t ms_root(const uint8_t *key, size_t keys, const uint8_t *message, size_t messages,
                            const uint8_t *signature, size_t signatures, uint8_t *root) {
    return hbs_root(key, keys, message, messages, signature, signatures, root);
}

AS_LIBRARY uint64_t ms_message_prefix(const uint8_t *key, size_t keys, const uint8_t *signature, size_t signatures,
                                      uint8_t *prefix) {
    return hbs_message_prefix(key, keys, signature, signatures, prefix);
}

AS_LIBRARY uint64_t ms_verify_digest(const uint8_t *key, size_t keys, const uint8_t *signature, size_t signatures,
                                     const uint8_t *digest) {
    return hbs_verify_digest(key, keys, signature, signatures, digest);
}

AS_LIBRARY uint64_t ms_begin(hbs_message *message, const uint8_t *key, size_t keys, const uint8_t *signature,
                             size_t signatures) {
    return hbs_begin(message, key, keys, signature, signatures);
}

AS_LIBRARY void ms_add(hbs_message *message, const uint8_t *piece, size_t length) { hbs_add(message, piece, length); }

AS_LIBRARY uint64_t ms_end(const hbs_message *message, const uint8_t *key, size_t keys, const uint8_t *signature,
                           size_t signatures) {
    return hbs_end(message, key, keys, signature, signatures);
}
