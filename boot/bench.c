/*
 * Times one verification by the library for boot loaders, by the verifiers of the program, and by boot/plain.c, in one
 * process and in turn: bench ROUNDS PUBLIC MESSAGE SIGNATURE. It prints the shortest time of each in microseconds of
 * the processor. With the word `bytes` behind these it prints nanoseconds for a byte of a long message in place of
 * that, also of hbs_add.
 */
#define _DEFAULT_SOURCE
#include <stdio.h>
#include <stdlib.h>
#include <time.h>

#include "hbs_verify.h"

typedef uint64_t verifier(const uint8_t *, size_t, const uint8_t *, size_t, const uint8_t *, size_t);
verifier program_verify, plain_verify;

#define MOST_BYTES (1 << 17)
#define VERIFIERS 3
/* A round takes each verifier so often, so that the clock is fine enough. */
#define CALLS 8

static verifier *const EACH[VERIFIERS] = {hbs_verify, program_verify, plain_verify};
static const char *const NAMES[VERIFIERS] = {"library", "program", "plain"};

typedef struct {
    uint8_t bytes[MOST_BYTES];
    size_t length;
} content;

static content parts[3];

static void read_into(content *it, const char *path) {
    FILE *file = fopen(path, "rb");
    if (!file) {
        perror(path);
        exit(2);
    }
    it->length = fread(it->bytes, 1, sizeof it->bytes, file);
    fclose(file);
}

static double now(void) {
    struct timespec time;
    clock_gettime(CLOCK_PROCESS_CPUTIME_ID, &time);
    return 1e6 * (double)time.tv_sec + 1e-3 * (double)time.tv_nsec;
}

/* Microseconds of one call, as the mean of a few. */
static double once(verifier *verify) {
    const double begin = now();
    for (int i = 0; i < CALLS; i++) {
        if (verify(parts[0].bytes, parts[0].length, parts[1].bytes, parts[1].length, parts[2].bytes,
                   parts[2].length) != HBS_VERIFIED) {
            exit(1);
        }
    }
    return (now() - begin) / CALLS;
}

/* A message so long that a signature's own time doesn't count. */
#define LONG_BYTES (1 << 22)
static uint8_t long_message[LONG_BYTES];

/* Nanoseconds for a byte of a long message, of which the signature is none. */
static double each_byte(verifier *verify) {
    const double begin = now();
    if (verify(parts[0].bytes, parts[0].length, long_message, LONG_BYTES, parts[2].bytes, parts[2].length) ==
        HBS_VERIFIED) {
        exit(1);
    }
    return 1e3 * (now() - begin) / LONG_BYTES;
}

static double each_added_byte(void) {
    hbs_message it;
    double begin;
    if (hbs_begin(&it, parts[0].bytes, parts[0].length, parts[2].bytes, parts[2].length) != HBS_READY) exit(1);
    begin = now();
    hbs_add(&it, long_message, LONG_BYTES);
    return 1e3 * (now() - begin) / LONG_BYTES;
}

static void keep_shorter(double *shortest, double took) {
    if (*shortest == 0 || took < *shortest) *shortest = took;
}

int main(int count, char **words) {
    double shortest[VERIFIERS] = {0}, added = 0;
    const int bytes = count == 6;
    if (count != 5 && !bytes) return 2;
    for (int i = 0; i < 3; i++) read_into(&parts[i], words[2 + i]);
    for (long round = strtol(words[1], NULL, 10); round > 0; round--) {
        for (int i = 0; i < VERIFIERS; i++) keep_shorter(&shortest[i], bytes ? each_byte(EACH[i]) : once(EACH[i]));
        if (bytes) keep_shorter(&added, each_added_byte());
    }
    for (int i = 0; i < VERIFIERS; i++) printf(bytes ? "%s %.2f\n" : "%s %.1f\n", NAMES[i], shortest[i]);
    if (bytes) printf("hbs_add %.2f\n", added);
    return 0;
}
