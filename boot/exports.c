/*
 * The calls of include/hbs_verify.h, over the proved ones of crates/boot_verify. Each refuses a null pointer, and hands
 * its arguments on.
 *
 * The prover's compiler reads a null pointer as address 4096, so that an empty slice has an address. So a null pointer
 * must not reach the proved calls, except as an empty message. Nothing here is proved: it is read, and tested.
 */
#include "hbs_verify.h"

/* The proved calls, with lengths of 64 bits on every processor. */
uint64_t hbs_proved_verify(const uint8_t *, uint64_t, const uint8_t *, uint64_t, const uint8_t *, uint64_t);
uint64_t hbs_proved_root(const uint8_t *, uint64_t, const uint8_t *, uint64_t, const uint8_t *, uint64_t, uint8_t *);
uint64_t hbs_proved_message_prefix(const uint8_t *, uint64_t, const uint8_t *, uint64_t, uint8_t *);
uint64_t hbs_proved_verify_digest(const uint8_t *, uint64_t, const uint8_t *, uint64_t, const uint8_t *);
uint64_t hbs_proved_begin(hbs_message *, const uint8_t *, uint64_t, const uint8_t *, uint64_t);
void hbs_proved_add(hbs_message *, const uint8_t *, uint64_t);
uint64_t hbs_proved_end(const hbs_message *, const uint8_t *, uint64_t, const uint8_t *, uint64_t);

/* The proved calls have this layout of hbs_message. */
typedef char hbs_message_has_240_bytes[sizeof(hbs_message) == 240 ? 1 : -1];

#if defined(__arm__)
/* No call passes a floating-point number, so programs of either float ABI may link this (Tag_ABI_VFP_args). */
__asm__(".eabi_attribute 28, 3");
#endif

const uint32_t hbs_version = HBS_VERSION;

uint64_t hbs_verify(const uint8_t *public_key, size_t public_key_length, const uint8_t *message, size_t message_length,
                    const uint8_t *signature, size_t signature_length) {
    if (!public_key || !signature || (!message && message_length != 0)) return HBS_NULL;
    return hbs_proved_verify(public_key, public_key_length, message, message_length, signature, signature_length);
}

uint64_t hbs_root(const uint8_t *public_key, size_t public_key_length, const uint8_t *message, size_t message_length,
                  const uint8_t *signature, size_t signature_length, uint8_t *root) {
    if (!public_key || !signature || !root || (!message && message_length != 0)) return HBS_NULL;
    return hbs_proved_root(public_key, public_key_length, message, message_length, signature, signature_length, root);
}

uint64_t hbs_message_prefix(const uint8_t *public_key, size_t public_key_length, const uint8_t *signature,
                            size_t signature_length, uint8_t *prefix) {
    if (!prefix) return HBS_NULL;
    if (!public_key || !signature) {
        for (size_t i = 0; i < HBS_PREFIX_BYTES; i++) prefix[i] = 0;
        return HBS_NULL;
    }
    return hbs_proved_message_prefix(public_key, public_key_length, signature, signature_length, prefix);
}

uint64_t hbs_verify_digest(const uint8_t *public_key, size_t public_key_length, const uint8_t *signature,
                           size_t signature_length, const uint8_t *digest) {
    if (!public_key || !signature || !digest) return HBS_NULL;
    return hbs_proved_verify_digest(public_key, public_key_length, signature, signature_length, digest);
}

uint64_t hbs_begin(hbs_message *message, const uint8_t *public_key, size_t public_key_length, const uint8_t *signature,
                   size_t signature_length) {
    if (!message) return HBS_NULL;
    if (!public_key || !signature) {
        message->prefix_length = 0;
        return HBS_NULL;
    }
    return hbs_proved_begin(message, public_key, public_key_length, signature, signature_length);
}

/* After a null piece no message is begun, so that hbs_end refuses. */
void hbs_add(hbs_message *message, const uint8_t *piece, size_t piece_length) {
    if (!message || piece_length == 0) return;
    if (!piece) message->prefix_length = 0;
    else hbs_proved_add(message, piece, piece_length);
}

uint64_t hbs_end(const hbs_message *message, const uint8_t *public_key, size_t public_key_length,
                 const uint8_t *signature, size_t signature_length) {
    if (!message || !public_key || !signature) return HBS_NULL;
    return hbs_proved_end(message, public_key, public_key_length, signature, signature_length);
}
