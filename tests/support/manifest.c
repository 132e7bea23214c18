/*
 * Verifies manifests by examples/manifest: for each line of standard input, PUBLIC MANIFEST SIGNATURE IMAGE PRODUCT
 * LEAST, it prints the answer, and behind a 0 the version and whether the image is the manifest's.
 */
#include <inttypes.h>
#include <stdio.h>
#include <stdlib.h>

#include "../../boot/sha256.h"
#include "../../examples/manifest/manifest.h"

typedef struct {
    uint8_t *bytes;
    size_t length;
} contents;

static contents read_file(const char *path) {
    contents it = {malloc(1 << 20), 0};
    FILE *file = fopen(path, "rb");
    if (!file || !it.bytes) exit(2);
    it.length = fread(it.bytes, 1, 1 << 20, file);
    fclose(file);
    return it;
}

static int image_is(const manifest *it, const contents *image) {
    uint8_t digest[32];
    sha256 hash;
    start(&hash);
    add(&hash, image->bytes, image->length);
    finish(&hash, digest);
    return manifest_has(it, image->length, digest);
}

static void answer_for(const char paths[4][256], const char *product, uint64_t least) {
    contents files[4];
    manifest it = {0, 0, {0}};
    uint64_t answer;
    for (int i = 0; i < 4; i++) files[i] = read_file(paths[i]);
    if (files[1].length != MANIFEST_BYTES) exit(2);
    answer = manifest_verify(&it, product, least, files[0].bytes, files[0].length, files[1].bytes, files[2].bytes,
                             files[2].length);
    printf("%" PRIu64, HBS_NUMBER(answer));
    if (answer == HBS_VERIFIED) printf(" %" PRIu64 " %d", it.version, image_is(&it, &files[3]));
    puts("");
    for (int i = 0; i < 4; i++) free(files[i].bytes);
}

int main(void) {
    char paths[4][256], product[256];
    uint64_t least;
    while (scanf("%255s %255s %255s %255s %255s %" SCNu64, paths[0], paths[1], paths[2], paths[3], product,
                 &least) == 6) {
        answer_for((const char (*)[256])paths, product, least);
    }
    return 0;
}
