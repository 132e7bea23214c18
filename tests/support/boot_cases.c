/*
 * Answers the cases of boot/bare/answers.c on this machine, for tests/suites/boot_bare: cases on the standard input,
 * answers on the standard output, with 0 in the place of the bytes of stack.
 */
#include <stdio.h>
#include <stdlib.h>

#include "hbs_verify.h"

static uint8_t *part(size_t length) {
    uint8_t *bytes = malloc(length ? length : 1);
    if (!bytes || fread(bytes, 1, length, stdin) != length) exit(2);
    return bytes;
}

int main(void) {
    uint32_t numbers[4];
    while (fread(numbers, sizeof numbers, 1, stdin) == 1) {
        uint8_t *key = part(numbers[1]), *message = part(numbers[2]), *signature = part(numbers[3]);
        uint64_t answer[2] = {0, 0};
        if (numbers[0] == 0) answer[0] = hbs_verify(key, numbers[1], message, numbers[2], signature, numbers[3]);
        if (numbers[0] == 2) answer[0] = hbs_verify_digest(key, numbers[1], signature, numbers[3], message);
        if (fwrite(answer, sizeof answer, 1, stdout) != 1) return 2;
        free(key);
        free(message);
        free(signature);
    }
    return 0;
}
