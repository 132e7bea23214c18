/*
 * A boot loader for a bare machine of QEMU: aarch64, RISC-V or Cortex-M3. It finds an image with its signature in
 * memory, verifies it under the public key that is linked in, says so on the serial port, and jumps to the image or
 * stops.
 *
 * A device may change the flash while it is read, so all that is judged is copied first: the copy is verified, and the
 * copy is started.
 */
#include "board.h"
#include "hbs_verify.h"

/* Where the maker of the machine puts what may be started: HEAD, the image's length, the signature's, and both. */
#define FLASH ((const volatile uint8_t *)FLASH_PLACE)
#define FLASH_BYTES 0x200000u
#define HEAD_BYTES 16u
static const uint8_t HEAD[8] = {'H', 'B', 'S', 'I', 'M', 'A', 'G', 'E'};

/* Where an image runs. */
#define IMAGE ((uint8_t *)IMAGE_PLACE)
#define MOST_IMAGE_BYTES 0x100000u

extern const uint8_t public_key[], public_key_end[];
void start(const uint8_t *begin, const uint8_t *end);
void load(void);

static uint8_t signature[HBS_MOST_SIGNATURE_BYTES];
static volatile uint8_t root[HBS_ROOT_BYTES];

/* What the library calls, and the compiler. */
void *memcpy(void *restrict to, const void *restrict from, size_t count) {
    for (size_t i = 0; i < count; i++) ((uint8_t *)to)[i] = ((const uint8_t *)from)[i];
    return to;
}

void *memmove(void *to, const void *from, size_t count) {
    if ((uintptr_t)to <= (uintptr_t)from) return memcpy(to, from, count);
    for (size_t i = count; i > 0; i--) ((uint8_t *)to)[i - 1] = ((const uint8_t *)from)[i - 1];
    return to;
}

void *memset(void *to, int value, size_t count) {
    for (size_t i = 0; i < count; i++) ((uint8_t *)to)[i] = (uint8_t)value;
    return to;
}

static void print(const char *text) {
    for (; *text; text++) {
        while (SERIAL_IS_FULL) {}
        SERIAL[0] = (uint8_t)*text;
    }
}

static void print_number(uint32_t number) {
    char digits[11], *first = digits + 10;
    *first = '\0';
    do *--first = (char)('0' + number % 10);
    while (number /= 10);
    print(first);
}

/* A length in the head, in four bytes, the greatest first. */
static uint32_t length_at(uint32_t place) {
    uint32_t length = 0;
    for (uint32_t i = 0; i < 4; i++) length = length << 8 | FLASH[place + i];
    return length;
}

static void copy(uint8_t *to, uint32_t place, uint32_t count) {
    for (uint32_t i = 0; i < count; i++) to[i] = FLASH[place + i];
}

/* Whether the computed root isn't the key's own, whose address is read again: a skip may change registers. */
static int differs(void) {
    const uint8_t *volatile key = public_key;
    const uint8_t *own = key + HBS_ROOT_PLACE((size_t)(public_key_end - public_key));
    uint8_t difference = 0;
    for (uint32_t i = 0; i < HBS_ROOT_BYTES; i++) difference |= (uint8_t)(root[i] ^ own[i]);
    return difference != 0;
}

/* The same verdict by the root, against forced faults: whatever instruction of the library is skipped, it decides. */
static int is_refused_by_root(uint32_t image_length, uint32_t signature_length) {
    const size_t key_length = (size_t)(public_key_end - public_key);
    for (uint32_t i = 0; i < HBS_ROOT_BYTES; i++) root[i] = (uint8_t)~public_key[HBS_ROOT_PLACE(key_length) + i];
    (void)hbs_root(public_key, key_length, IMAGE, image_length, signature, signature_length, (uint8_t *)root);
    return differs() || differs();
}

void load(void) {
    uint32_t image_length, signature_length;
    uint64_t answer;
    for (uint32_t i = 0; i < sizeof HEAD; i++) {
        if (FLASH[i] != HEAD[i]) {
            print("loader: no image\n");
            return;
        }
    }
    image_length = length_at(8);
    signature_length = length_at(12);
    if (image_length == 0 || image_length > MOST_IMAGE_BYTES || signature_length > sizeof signature ||
        image_length > FLASH_BYTES - HEAD_BYTES - signature_length) {
        print("loader: no such lengths\n");
        return;
    }
    copy(IMAGE, HEAD_BYTES, image_length);
    copy(signature, HEAD_BYTES + image_length, signature_length);
    answer = hbs_verify(public_key, (size_t)(public_key_end - public_key), IMAGE, image_length, signature,
                        signature_length);
    if (answer == HBS_VERIFIED && !is_refused_by_root(image_length, signature_length)) {
        print("loader: verified\n");
        start(IMAGE, IMAGE + image_length);
        print("loader: the image has returned\n");
        return;
    }
    print("loader: refused ");
    print_number((uint32_t)HBS_NUMBER(answer));
    print(" detail ");
    print_number((uint32_t)HBS_DETAIL(answer));
    print("\n");
}
