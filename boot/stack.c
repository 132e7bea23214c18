/*
 * Prints how many bytes of stack each call of include/hbs_verify.h takes: stack PUBLIC MESSAGE SIGNATURE. The call runs
 * on memory that was painted before, and what it has written over is counted. What the change of stacks takes itself is
 * measured by a call that does nothing, and left out.
 */
#include <stdio.h>
#include <stdlib.h>
#include <string.h>
#include <ucontext.h>

#include "hbs_verify.h"

#define STACK_BYTES (1 << 20)
#define PAINT 0xa5

static uint8_t stack[STACK_BYTES] __attribute__((aligned(4096)));
static uint8_t public_key[HBS_XMSS_KEY_BYTES + 1], message[1 << 16], signature[HBS_MOST_SIGNATURE_BYTES + 1];
static size_t key_length, message_length, signature_length;
static uint8_t prefix[HBS_PREFIX_BYTES], root[HBS_ROOT_BYTES];
static hbs_message pieces;
static const uint8_t digest[HBS_DIGEST_BYTES] = {1};
static volatile uint64_t answer;

static void nothing(void) { answer = 0; }

static void verify(void) {
    answer = hbs_verify(public_key, key_length, message, message_length, signature, signature_length);
}

static void computed_root(void) {
    answer = hbs_root(public_key, key_length, message, message_length, signature, signature_length, root);
}

static void begin(void) {
    answer = hbs_begin(&pieces, public_key, key_length, signature, signature_length);
}

static void add(void) { hbs_add(&pieces, message, message_length); }

static void end(void) {
    answer = hbs_end(&pieces, public_key, key_length, signature, signature_length);
}

static void message_prefix(void) {
    answer = hbs_message_prefix(public_key, key_length, signature, signature_length, prefix);
}

static void verify_digest(void) {
    answer = hbs_verify_digest(public_key, key_length, signature, signature_length, digest);
}

static size_t read(const char *path, uint8_t *into, size_t most) {
    FILE *file = fopen(path, "rb");
    size_t length;
    if (!file) {
        perror(path);
        exit(2);
    }
    length = fread(into, 1, most, file);
    fclose(file);
    return length;
}

/* The bytes of the stack that a call has written over. */
static size_t written_by(void (*call)(void)) {
    ucontext_t here, there;
    size_t kept = 0;
    memset(stack, PAINT, sizeof stack);
    getcontext(&there);
    there.uc_stack.ss_sp = stack;
    there.uc_stack.ss_size = sizeof stack;
    there.uc_link = &here;
    makecontext(&there, call, 0);
    swapcontext(&here, &there);
    while (kept < sizeof stack && stack[kept] == PAINT) kept++;
    return sizeof stack - kept;
}

int main(int count, char **words) {
    size_t none;
    if (count != 4) return 2;
    key_length = read(words[1], public_key, sizeof public_key);
    message_length = read(words[2], message, sizeof message);
    signature_length = read(words[3], signature, sizeof signature);
    none = written_by(nothing);
    printf("hbs_verify %zu\n", written_by(verify) - none);
    if (answer != HBS_VERIFIED) return 1;
    printf("hbs_begin %zu\n", written_by(begin) - none);
    printf("hbs_add %zu\n", written_by(add) - none);
    printf("hbs_end %zu\n", written_by(end) - none);
    if (answer != HBS_VERIFIED) return 1;
    printf("hbs_root %zu\n", written_by(computed_root) - none);
    printf("hbs_message_prefix %zu\n", written_by(message_prefix) - none);
    printf("hbs_verify_digest %zu\n", written_by(verify_digest) - none);
    return 0;
}
