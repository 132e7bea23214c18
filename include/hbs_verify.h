/*
 * Verifies hash-based signatures: LMS and HSS (RFC 8554) and XMSS (RFC 8391), all with SHA-256.
 *
 * The library is libhbs_verify.a, which boot/build makes for x86-64, aarch64, armv7-A, Cortex-M and RISC-V. It has no
 * data, no globals and no allocator, and calls memcpy, memmove and memset at most, on Arm by the names of its run-time
 * ABI, and on Cortex-M0 a division. docs/VERIFYING.md says how it is linked and what it costs.
 *
 * What every call asks for. Nothing checks it, as in C:
 *   - As many bytes as its length says can be read at a pointer: 32 at `digest`. 128 can be read and written at
 *     `prefix`, and 32 at `root`. A length is below 2^63.
 *   - No alignment of bytes: any address will do. Some archives load and store numbers there, which the processor has
 *     to take: x86_64, cortex-m3 and cortex-m33, where CCR.UNALIGN_TRP is 0, and aarch64, where the MMU is on, the
 *     memory is Normal, and SCTLR_EL1.A is 0. The others don't. An hbs_message has the alignment that C gives it.
 *   - Nobody writes the memory while a call runs: no other thread or processor, no interrupt, no device. What is
 *     verified in memory that others can write is worth nothing. Copy it first, and use the copy.
 *   - What is written (`prefix`, `root`, an hbs_message) overlaps nothing that is read. What is only read may overlap.
 *   - The stack has the room that docs/VERIFYING.md names. Nothing below the stack pointer is used, so interrupts may
 *     use the same stack.
 *   - On x86-64 the registers of SSE2 are used, and on aarch64 those of SIMD; in aarch64-strict none of these.
 *   - The calling convention is that of the System V ABI on x86-64, whatever the compiler's own is: HBS_CALL says so.
 *     On aarch64 it is AAPCS64, little-endian. There x18 isn't used, as firmware may keep a pointer of its own in it.
 *     On 32 bits it is AAPCS with numbers in integer registers, and the psABI of RISC-V for ilp32; on RISC-V of 64 bits
 *     lp64.
 *
 * Address 0 is null, also where the processor has memory there. A null pointer is refused (7), except for a message of
 * no bytes. A message that begins at address 0 can be verified in pieces: hbs_add of a copy of its first byte, and then
 * of the rest, from address 1 on. Better copy all of it, verify the copy and start the copy.
 *
 * Threads: a call uses its arguments and its stack alone. Any number of calls may run side by side.
 *
 * What is returned. The lower 32 bits have the number of the first refusal that applies, or 0 where there is none, and
 * the upper 32 bits have its detail. docs/REFUSALS.md says which refusal comes first.
 *
 *   number                   detail                       meaning
 *    0 HBS_VERIFIED          0                            the signature is valid for this message under this key
 *    1 HBS_TRUNCATED         place                        a field does not fit into the bytes that are left
 *    2 HBS_UNKNOWN_TYPE      place                        a type's code names none
 *    3 HBS_LEVEL_COUNT       place                        a number of levels is not 1 to 8
 *    4 HBS_LEAF_OUT_OF_RANGE place                        the index names no leaf of the tree
 *    5 HBS_TRAILING          place                        bytes follow the end of the signature
 *    6 HBS_KEY_LENGTH        length of the key            the public key has not 56, 60 or 68 bytes
 *    7 HBS_NULL              0                            a pointer is null
 *    8 HBS_CHANGED           0                            hbs_end has another prefix than hbs_begin, or none is begun
 *    9 HBS_READY             0, or bytes of a prefix      no refusal, and no verdict: of hbs_root, hbs_begin and
 *                                                         hbs_message_prefix
 *   10 HBS_TYPE_MISMATCH     level                        the types of the signature are not its key's
 *   11 HBS_LEVEL_MISMATCH    0                            the signature has not as many levels as the key
 *   12 HBS_ROOT_MISMATCH     level                        the signature does not lead to its key's root
 *
 * A place is in bytes from the beginning of the key or the signature. Level 0 is the top one, and the only one of LMS
 * and XMSS. A length of 2^32 or more is given as 2^32 - 1. Every answer other than 0 means: do not start it. Compilers
 * warn where an answer is not used (HBS_MUST_CHECK).
 */
#ifndef HBS_VERIFY_H
#define HBS_VERIFY_H

#include <stddef.h>
#include <stdint.h>

/* The calling convention of every call here. Compilers for UEFI and Windows have another one of their own. */
#if defined(__x86_64__) && (defined(__GNUC__) || defined(__clang__))
#define HBS_CALL __attribute__((sysv_abi))
#elif defined(_M_X64)
#error "a compiler for x86-64 has to know __attribute__((sysv_abi))"
#else
#define HBS_CALL
#endif

/* What an answer is for. */
#if defined(__GNUC__) || defined(__clang__)
#define HBS_MUST_CHECK __attribute__((warn_unused_result))
#else
#define HBS_MUST_CHECK
#endif

#ifdef __cplusplus
extern "C" {
#endif

/* The version of this header and of hbsign: 65536 times its first number, 256 times the second, and the third. */
#define HBS_VERSION 0x000200

/* The bytes of a public key, whose number names the scheme (RFC 8554 5.3 and 6.1, RFC 8391 4.1.7). */
#define HBS_LMS_KEY_BYTES 56
#define HBS_HSS_KEY_BYTES 60
#define HBS_XMSS_KEY_BYTES 68

/*
 * The bytes of a signature, for a room or an array of it:
 *   - of LMS, by the tree's height and the width W (RFC 8554 4.5 and 5.4): HBS_LMS_SIGNATURE_BYTES(10, 8)
 *   - of HSS, by the sum of its levels (RFC 8554 6.2):
 *     HBS_HSS_SIGNATURE_BYTES(HBS_HSS_LEVEL_BYTES(10, 8) + HBS_HSS_LEVEL_BYTES(5, 4))
 *   - of XMSS, by the tree's height (RFC 8391 4.1.8): HBS_XMSS_SIGNATURE_BYTES(10)
 * A height or width that no type has makes the number negative, so that no array has it.
 */
#define HBS_LMS_SIGNATURE_BYTES(height, width) (44 + 32 * (HBS_LMS_HEIGHT(height) + HBS_CHAINS(width)))
#define HBS_HSS_LEVEL_BYTES(height, width) (HBS_LMS_SIGNATURE_BYTES(height, width) + HBS_LMS_KEY_BYTES)
#define HBS_HSS_SIGNATURE_BYTES(levels) (4 - HBS_LMS_KEY_BYTES + (levels))
#define HBS_XMSS_SIGNATURE_BYTES(height) (36 + 32 * (67 + HBS_XMSS_HEIGHT(height)))

/* For these: a number that types have, or a negative one; and the chains of a width (RFC 8554 4.1, p of table 1). */
#define HBS_NO_TYPE (-0x100000)
#define HBS_LMS_HEIGHT(height) \
    ((height) == 5 ? 5 : (height) == 10 ? 10 : (height) == 15 ? 15 : \
     (height) == 20 ? 20 : (height) == 25 ? 25 : HBS_NO_TYPE)
#define HBS_XMSS_HEIGHT(height) ((height) == 10 ? 10 : (height) == 16 ? 16 : (height) == 20 ? 20 : HBS_NO_TYPE)
#define HBS_CHAINS(width) \
    ((width) == 1 ? 265 : (width) == 2 ? 133 : (width) == 4 ? 67 : (width) == 8 ? 34 : HBS_NO_TYPE)

/* The most bytes that a signature has: HSS with eight levels of H25/W1 (RFC 8554 6.2). A longer one is refused. */
#define HBS_MOST_SIGNATURE_BYTES 74988

/* The bytes of a root, and the place of a public key's own among its 56, 60 or 68 bytes. */
#define HBS_ROOT_BYTES 32
#define HBS_ROOT_PLACE(public_key_length) \
    ((public_key_length) == HBS_XMSS_KEY_BYTES ? 4u : (public_key_length) - HBS_ROOT_BYTES)

/* The bytes at `prefix` of hbs_message_prefix, and those of a digest of SHA-256. */
#define HBS_PREFIX_BYTES 128
#define HBS_DIGEST_BYTES 32

#define HBS_VERIFIED 0
#define HBS_TRUNCATED 1
#define HBS_UNKNOWN_TYPE 2
#define HBS_LEVEL_COUNT 3
#define HBS_LEAF_OUT_OF_RANGE 4
#define HBS_TRAILING 5
#define HBS_KEY_LENGTH 6
#define HBS_NULL 7
#define HBS_CHANGED 8
#define HBS_READY 9
#define HBS_TYPE_MISMATCH 10
#define HBS_LEVEL_MISMATCH 11
#define HBS_ROOT_MISMATCH 12

/* The number of an answer, and its detail, each of the type uint64_t. */
#define HBS_NUMBER(answer) ((answer) & 0xffffffffu)
#define HBS_DETAIL(answer) ((answer) >> 32)

/* The version of the archive, which is HBS_VERSION where the header is of the same release. */
extern const uint32_t hbs_version;

/*
 * 0 exactly where `signature` is a valid signature of `message` under `public_key`. Otherwise the first refusal.
 */
HBS_MUST_CHECK HBS_CALL uint64_t hbs_verify(const uint8_t *public_key, size_t public_key_length,
                                            const uint8_t *message, size_t message_length,
                                            const uint8_t *signature, size_t signature_length);

/*
 * A message in pieces, and what is known of it so far. It is the caller's memory, and the library's to read and write.
 */
typedef struct {
    uint32_t hash[8];
    uint8_t block[64];
    uint64_t length;
    uint8_t prefix[128];
    uint64_t prefix_length;
} hbs_message;

/*
 * Begins a message for a key and a signature. HBS_READY, which says nothing of validity, or the refusal that is known
 * without any hash, 1 to 6 or 11.
 */
HBS_MUST_CHECK HBS_CALL uint64_t hbs_begin(hbs_message *message,
                                           const uint8_t *public_key, size_t public_key_length,
                                           const uint8_t *signature, size_t signature_length);

/*
 * Adds a piece to the message. Bytes that others can change may be read once here, and again where they are used: copy
 * a piece, add the copy and use the copy.
 */
HBS_CALL void hbs_add(hbs_message *message, const uint8_t *piece, size_t piece_length);

/*
 * The answer of hbs_verify for all bytes that were added, with the key and the signature of this call: 0 exactly where
 * the signature is valid for them. It is HBS_CHANGED, or an early refusal, where their prefix (hbs_message_prefix) is
 * not that of hbs_begin's key and signature, where no message is begun, and where a piece was null. The message stays,
 * so that hbs_end can be called again.
 */
HBS_MUST_CHECK HBS_CALL uint64_t hbs_end(const hbs_message *message,
                                         const uint8_t *public_key, size_t public_key_length,
                                         const uint8_t *signature, size_t signature_length);

/*
 * For a loader that fears forced faults: computes the root to which the signature leads, and compares it with none.
 *
 * `root` has HBS_ROOT_BYTES, and overlaps nothing that is read. Before each call the caller fills it with other bytes
 * than the key's root, since a refusal leaves it as it was. After the call it has the key's root exactly where the
 * signature is valid for the message. So the caller's own comparison of `root` with the bytes from HBS_ROOT_PLACE on of
 * the key decides, and can be made twice. Read the key's address again before it (volatile): a skip may let the call
 * return with wrong registers. Of HSS each level signs the next one's key as it was computed, so the message decides
 * the root.
 *
 * The answer decides nothing. It is HBS_READY where a root was written. Otherwise it is a refusal as hbs_verify has,
 * but of HSS that of the lowest level that is refused, and `root` is as it was.
 */
HBS_CALL uint64_t hbs_root(const uint8_t *public_key, size_t public_key_length,
                           const uint8_t *message, size_t message_length,
                           const uint8_t *signature, size_t signature_length,
                           uint8_t *root);

/*
 * For a message that is hashed by hardware: writes the bytes that are hashed before it. They are 54 for LMS and HSS
 * (RFC 8554 4.5) and 128 for XMSS (RFC 8391 4.1.9).
 *
 * `prefix` has HBS_PREFIX_BYTES. Where the number is HBS_READY, the detail is how many of them, from the first on, are
 * to be hashed, and the answer says nothing of the signature's validity. Otherwise it is the refusal of the key or the
 * signature that is known without any hash, 1 to 6 or 11, and `prefix` has zeros.
 */
HBS_MUST_CHECK HBS_CALL uint64_t hbs_message_prefix(const uint8_t *public_key, size_t public_key_length,
                                                    const uint8_t *signature, size_t signature_length,
                                                    uint8_t *prefix);

/*
 * `digest` has HBS_DIGEST_BYTES: the SHA-256 of these bytes followed by the message. The answer is that of hbs_verify
 * for every message with this digest. Nothing is kept between the calls: key and signature are judged again, in whole.
 * A digest that comes with the message says nothing of it: hash the message.
 */
HBS_MUST_CHECK HBS_CALL uint64_t hbs_verify_digest(const uint8_t *public_key, size_t public_key_length,
                                                   const uint8_t *signature, size_t signature_length,
                                                   const uint8_t *digest);

#ifdef __cplusplus
}
#endif

#endif
