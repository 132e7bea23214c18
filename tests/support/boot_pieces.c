/*
 * A message in pieces, by include/hbs_verify.h: boot_pieces PUBLIC MESSAGE SIGNATURE OTHER, where both signatures are
 * valid under the key, and the first one is of the message. It prints each wrong answer, and how many were right.
 */
#include <stdio.h>
#include <stdlib.h>
#include <string.h>

#include "hbs_verify.h"

#define ROOM 40000u

typedef struct {
    uint8_t bytes[ROOM];
    size_t length;
} content;

enum { KEY, MESSAGE, SIGNATURE, OTHER, PARTS };

static content all[PARTS];
static hbs_message pieces;
static int right, wrong;

static void wanted(const char *what, uint64_t answer, uint64_t expected) {
    if (answer == expected) {
        right++;
        return;
    }
    wrong++;
    printf("%s: %llx\n", what, (unsigned long long)answer);
}

static void read_into(content *it, const char *path) {
    FILE *file = fopen(path, "rb");
    if (!file) {
        perror(path);
        exit(2);
    }
    it->length = fread(it->bytes, 1, sizeof it->bytes, file);
    fclose(file);
}

static uint64_t begin(const content *signature) {
    return hbs_begin(&pieces, all[KEY].bytes, all[KEY].length, signature->bytes, signature->length);
}

static uint64_t end(const content *signature) {
    return hbs_end(&pieces, all[KEY].bytes, all[KEY].length, signature->bytes, signature->length);
}

/* The message in pieces of a length, the last one shorter. */
static void by(size_t length) {
    const content message = all[MESSAGE];
    wanted("begin", begin(&all[SIGNATURE]), HBS_READY);
    for (size_t at = 0; at < message.length; at += length) {
        hbs_add(&pieces, all[MESSAGE].bytes + at, length < message.length - at ? length : message.length - at);
    }
}

/* What isn't the message. */
static void others(void) {
    by(100);
    hbs_add(&pieces, all[MESSAGE].bytes, 1);
    wanted("a byte more", HBS_NUMBER(end(&all[SIGNATURE])), HBS_ROOT_MISMATCH);
    wanted("begin", begin(&all[SIGNATURE]), HBS_READY);
    wanted("no piece", HBS_NUMBER(end(&all[SIGNATURE])), HBS_ROOT_MISMATCH);
    hbs_add(&pieces, all[MESSAGE].bytes, all[MESSAGE].length - 1);
    wanted("a byte less", HBS_NUMBER(end(&all[SIGNATURE])), HBS_ROOT_MISMATCH);
}

/* A message that is begun twice, copied between its pieces, and added to after its end. */
static void gone_on_with(void) {
    const content *message = &all[MESSAGE];
    const size_t half = message->length / 2;
    hbs_message copy;
    by(100);
    wanted("begin again", begin(&all[SIGNATURE]), HBS_READY);
    hbs_add(&pieces, message->bytes, half);
    copy = pieces;
    memset(&pieces, 0xee, sizeof pieces);
    wanted("where it was", end(&all[SIGNATURE]), HBS_CHANGED);
    pieces = copy;
    wanted("half of it", HBS_NUMBER(end(&all[SIGNATURE])), HBS_ROOT_MISMATCH);
    hbs_add(&pieces, message->bytes + half, message->length - half);
    wanted("all of it, in a copy, after an end", end(&all[SIGNATURE]), HBS_VERIFIED);
}

/* A signature and a key that change between beginning and end, but not their prefix: those at the end are judged. */
static void same_prefix(void) {
    content signature = all[SIGNATURE], key = all[KEY];
    signature.bytes[signature.length - 1] ^= 1;
    key.bytes[key.length - 1] ^= 1;
    by(100);
    wanted("another path in the end", HBS_NUMBER(end(&signature)), HBS_ROOT_MISMATCH);
    wanted("another key in the end", HBS_NUMBER(hbs_end(&pieces, key.bytes, key.length, all[SIGNATURE].bytes,
                                                        all[SIGNATURE].length)), HBS_ROOT_MISMATCH);
    wanted("another path at the beginning", begin(&signature), HBS_READY);
    hbs_add(&pieces, all[MESSAGE].bytes, all[MESSAGE].length);
    wanted("the right one in the end", end(&all[SIGNATURE]), HBS_VERIFIED);
}

/* Memory that no call began, another signature, and a beginning that was refused. */
static void not_begun(void) {
    content cut = all[SIGNATURE];
    memset(&pieces, 0, sizeof pieces);
    wanted("zeros", end(&all[SIGNATURE]), HBS_CHANGED);
    memset(&pieces, 0xee, sizeof pieces);
    hbs_add(&pieces, all[MESSAGE].bytes, all[MESSAGE].length);
    wanted("other bytes", end(&all[SIGNATURE]), HBS_CHANGED);
    by(64);
    wanted("another signature", end(&all[OTHER]), HBS_CHANGED);
    wanted("the right one after it", end(&all[SIGNATURE]), HBS_VERIFIED);
    cut.length--;
    wanted("a cut signature", HBS_NUMBER(end(&cut)), HBS_TRUNCATED);
    wanted("a beginning with it", HBS_NUMBER(begin(&cut)), HBS_TRUNCATED);
    hbs_add(&pieces, all[MESSAGE].bytes, all[MESSAGE].length);
    wanted("an end after that", end(&all[SIGNATURE]), HBS_CHANGED);
}

int main(int count, char **words) {
    if (count != PARTS + 1) return 2;
    for (int i = 0; i < PARTS; i++) read_into(&all[i], words[i + 1]);
    for (size_t length = 1; length <= 200; length++) {
        by(length);
        wanted("all pieces", end(&all[SIGNATURE]), HBS_VERIFIED);
        wanted("the same again", end(&all[SIGNATURE]), HBS_VERIFIED);
    }
    others();
    gone_on_with();
    same_prefix();
    not_begun();
    printf("%d right, %d wrong\n", right, wrong);
    return wrong != 0;
}
