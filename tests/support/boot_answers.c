/*
 * The answers of include/hbs_verify.h for the files of each input line: a public key, a message and a signature, with
 * tabs between them. A line of output has the answers of hbs_verify, hbs_message_prefix, hbs_verify_digest and hbs_root
 * as number:detail, the prefix in hex, and the root. The digest is the SHA-256 of prefix and message, or zeros where
 * the prefix is refused. Prefix and root were filled with bytes ee.
 */
#include <stdio.h>
#include <stdlib.h>
#include <string.h>

#include "../../boot/sha256.h"
#include "hbs_verify.h"

typedef struct {
    uint8_t *bytes;
    size_t length;
} content;

static content content_of(const char *path) {
    FILE *file = fopen(path, "rb");
    content it = {NULL, 0};
    if (!file) {
        perror(path);
        exit(2);
    }
    fseek(file, 0, SEEK_END);
    it.length = (size_t)ftell(file);
    rewind(file);
    it.bytes = malloc(it.length ? it.length : 1);
    if (!it.bytes || fread(it.bytes, 1, it.length, file) != it.length) exit(2);
    fclose(file);
    return it;
}

static void print_bytes(const uint8_t *bytes, size_t count) {
    for (size_t i = 0; i < count; i++) printf("%02x", bytes[i]);
}

static void print(uint64_t answer) { printf("%u:%u ", (unsigned)HBS_NUMBER(answer), (unsigned)HBS_DETAIL(answer)); }

int main(void) {
    char line[4096];
    while (fgets(line, sizeof line, stdin)) {
        const content key = content_of(strtok(line, "\t\n"));
        const content message = content_of(strtok(NULL, "\t\n"));
        const content signature = content_of(strtok(NULL, "\t\n"));
        uint8_t *prefix = malloc(HBS_PREFIX_BYTES), *digest = calloc(1, HBS_DIGEST_BYTES);
        uint8_t *root = malloc(HBS_ROOT_BYTES);
        size_t length = 0;
        uint64_t answer;
        sha256 hash;
        if (!prefix || !digest || !root) return 2;
        memset(prefix, 0xee, HBS_PREFIX_BYTES);
        memset(root, 0xee, HBS_ROOT_BYTES);
        print(hbs_verify(key.bytes, key.length, message.bytes, message.length, signature.bytes, signature.length));
        answer = hbs_message_prefix(key.bytes, key.length, signature.bytes, signature.length, prefix);
        print(answer);
        if (HBS_NUMBER(answer) == HBS_READY) {
            length = HBS_DETAIL(answer);
            start(&hash);
            add(&hash, prefix, length);
            add(&hash, message.bytes, message.length);
            finish(&hash, digest);
        }
        print(hbs_verify_digest(key.bytes, key.length, signature.bytes, signature.length, digest));
        print(hbs_root(key.bytes, key.length, message.bytes, message.length, signature.bytes, signature.length, root));
        print_bytes(prefix, HBS_PREFIX_BYTES);
        putchar(' ');
        print_bytes(root, HBS_ROOT_BYTES);
        putchar('\n');
        fflush(stdout);
        free(key.bytes);
        free(message.bytes);
        free(signature.bytes);
        free(prefix);
        free(digest);
        free(root);
    }
    return 0;
}
