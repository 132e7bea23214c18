/*
 * The command `verify` of hbsign over libhbs_verify.a, in ISO C: the same lines and exit statuses (docs/REFUSALS.md).
 *
 *     verify PUBLIC MESSAGE SIGNATURE
 */
#include <errno.h>
#include <stdio.h>
#include <stdlib.h>
#include <string.h>

#include "hbs_verify.h"

/* More bytes of a signature than these decide nothing: one more than the longest has. */
#define DECISIVE (HBS_MOST_SIGNATURE_BYTES + 1)
/* The first place of a message in memory. */
#define PIECE 65536
/* Refusals of the machine, which are no answers of the library. */
#define MESSAGE_READ 14
#define OUT_OF_MEMORY 46
#define FILE_FAILED 53

enum { DONE = 0, REFUSED = 1, WRONG_LINE = 2, MACHINE_FAILED = 3 };

static const char USAGE[] = "Usage: hbsign verify PUBLIC MESSAGE SIGNATURE\n";

/* A refusal's name, and what stands before its detail where it has one. */
typedef struct {
    uint32_t number;
    const char *name, *detail;
} refusal;

static const refusal REFUSALS[] = {
    {HBS_TRUNCATED, "Truncated", " at "},
    {HBS_UNKNOWN_TYPE, "UnknownType", " at "},
    {HBS_LEVEL_COUNT, "LevelCount", " at "},
    {HBS_LEAF_OUT_OF_RANGE, "LeafOutOfRange", " at "},
    {HBS_TRAILING, "Trailing", " at "},
    {HBS_KEY_LENGTH, "KeyLength", " of "},
    {HBS_TYPE_MISMATCH, "TypeMismatch", " level "},
    {HBS_LEVEL_MISMATCH, "LevelMismatch", NULL},
    {HBS_ROOT_MISMATCH, "RootMismatch", " level "},
    {MESSAGE_READ, "MessageRead", NULL},
    {OUT_OF_MEMORY, "OutOfMemory", NULL},
    {FILE_FAILED, "FileFailed", NULL},
};

typedef struct {
    const char *path;
    FILE *file;
    uint8_t *bytes;
    size_t length;
} input;

/* Prints an answer's line, and gives the exit status. A line that can't be written is no answer. */
static int report(uint64_t answer, unsigned long long detail) {
    const uint64_t number = HBS_NUMBER(answer);
    int status = number == HBS_VERIFIED ? DONE : REFUSED;
    if (number == HBS_VERIFIED) puts("verified");
    for (size_t i = 0; i < sizeof REFUSALS / sizeof *REFUSALS; i++) {
        const refusal *it = &REFUSALS[i];
        if (it->number != number) continue;
        printf("refused %u %s", (unsigned)it->number, it->name);
        if (it->detail) printf("%s%llu", it->detail, detail);
        putchar('\n');
    }
    if (number == MESSAGE_READ || number == OUT_OF_MEMORY || number == FILE_FAILED) status = MACHINE_FAILED;
    return fflush(stdout) == 0 && !ferror(stdout) ? status : MACHINE_FAILED;
}

/* Says what the machine failed to do, and refuses. */
static int failed(const input *it, const char *what, uint64_t number) {
    fprintf(stderr, "hbsign: %s: can't be %s: %s\n", it->path, what, strerror(errno));
    return report(number, 0);
}

/* Reads up to a number of bytes. False where a read fails, or memory is refused: errno is ENOMEM then. */
static int read_up_to(input *it, size_t most) {
    size_t room = 0;
    while (it->length < most) {
        if (it->length == room) {
            uint8_t *more;
            room = room ? 2 * room : PIECE;
            more = realloc(it->bytes, room);
            if (!more) {
                errno = ENOMEM;
                return 0;
            }
            it->bytes = more;
        }
        const size_t wanted = most - it->length < room - it->length ? most - it->length : room - it->length;
        const size_t came = fread(it->bytes + it->length, 1, wanted, it->file);
        it->length += came;
        if (came < wanted) break;
    }
    return !ferror(it->file);
}

/* Reads a public key, and counts what follows the bytes that any key has. */
static int read_key(input *it, unsigned long long *counted) {
    static uint8_t passed[PIECE];
    size_t came;
    if (!read_up_to(it, HBS_XMSS_KEY_BYTES + 1)) return 0;
    *counted = it->length;
    while ((came = fread(passed, 1, sizeof passed, it->file)) > 0) *counted += came;
    return !ferror(it->file);
}

/*
 * The answer where the message can't be read. It is only read at the bottom level, so a refusal that comes before has
 * to be found, and a digest that nobody signed finds it.
 */
static uint64_t without_message(const input *public_key, const input *signature) {
    static const uint8_t NO_DIGEST[HBS_DIGEST_BYTES];
    const uint64_t bottom = public_key->length == HBS_HSS_KEY_BYTES ? public_key->bytes[3] - 1u : 0;
    const uint64_t answer = hbs_verify_digest(public_key->bytes, public_key->length, signature->bytes,
                                              signature->length, NO_DIGEST);
    const int is_last = HBS_NUMBER(answer) == HBS_ROOT_MISMATCH && HBS_DETAIL(answer) == bottom;
    return answer == HBS_VERIFIED || is_last ? MESSAGE_READ : answer;
}

/* Opens the files in the order of the line, reads them, and judges what is in them. */
static int judge(input *public_key, input *message, input *signature) {
    input *const files[3] = {public_key, message, signature};
    unsigned long long key_length;
    uint64_t answer;
    int is_read;
    for (int i = 0; i < 3; i++) {
        files[i]->file = fopen(files[i]->path, "rb");
        if (!files[i]->file) return failed(files[i], "opened", FILE_FAILED);
    }
    errno = 0;
    if (!read_key(public_key, &key_length)) {
        return failed(public_key, "read", errno == ENOMEM ? OUT_OF_MEMORY : FILE_FAILED);
    }
    if (!read_up_to(signature, DECISIVE)) {
        return failed(signature, "read", errno == ENOMEM ? OUT_OF_MEMORY : FILE_FAILED);
    }
    if (key_length > HBS_XMSS_KEY_BYTES) return report(HBS_KEY_LENGTH, key_length);
    is_read = read_up_to(message, SIZE_MAX / 2);
    if (!is_read && errno == ENOMEM) return report(OUT_OF_MEMORY, 0);
    if (!is_read) {
        answer = without_message(public_key, signature);
        if (HBS_NUMBER(answer) == MESSAGE_READ) return failed(message, "read", answer);
    } else {
        answer = hbs_verify(public_key->bytes, public_key->length, message->bytes, message->length, signature->bytes,
                            signature->length);
    }
    return report(answer, HBS_DETAIL(answer));
}

int main(int count, char **words) {
    const char *paths[3] = {NULL, NULL, NULL};
    int found = 0, are_files = 0;
    for (int i = 1; i < count; i++) {
        const char *word = words[i];
        const int is_option = !are_files && word[0] == '-' && word[1] != '\0';
        if (is_option && strcmp(word, "--") == 0) {
            are_files = 1;
        } else if (is_option && (strcmp(word, "--help") == 0 || strcmp(word, "-h") == 0)) {
            printf("Verifies a signature of a message\n\n%s", USAGE);
            return DONE;
        } else if (i == 1 ? strcmp(word, "verify") != 0 : is_option || found == 3) {
            found = 4;
            break;
        } else if (i > 1) {
            paths[found++] = word;
        }
    }
    if (found != 3) {
        fputs(USAGE, stderr);
        return WRONG_LINE;
    }
    input public_key = {paths[0], NULL, NULL, 0}, message = {paths[1], NULL, NULL, 0};
    input signature = {paths[2], NULL, NULL, 0};
    return judge(&public_key, &message, &signature);
}
