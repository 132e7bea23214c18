/*
 * Runs the program of boot/bare for RISC-V, and looks at each of its accesses to memory:
 *
 *     boot_aligned BITS PROGRAM
 *
 * BITS is 32 or 64, and PROGRAM a file of machine code for address CODE. In the current folder the program reads the
 * file `cases` and writes the file `answers`, as under QEMU, which loads from any address. It prints how many accesses
 * there were, how many of these at another address than a multiple of their bytes, and how many below the stack
 * pointer, in the memory of the stack.
 */
#include <stdio.h>
#include <stdlib.h>
#include <string.h>
#include <unicorn/unicorn.h>

#define CODE 0x80000000u
#define MEMORY 0x80100000u
#define MEMORY_BYTES 0x100000u
#define MOST_BYTES 0x100000u
/* What the program asks for by semihosting, and the three instructions by which it does. */
enum { OPEN = 1, CLOSE = 2, WRITE = 5, READ = 6, EXIT = 24 };
static const uint8_t ASKS[12] = {0x13, 0x10, 0xf0, 0x01, 0x73, 0x00, 0x10, 0x00, 0x13, 0x50, 0x70, 0x40};
#define MOST_ASKING 64

static uc_engine *machine;
static FILE *files[3];
static uint8_t moved[MOST_BYTES];
static size_t word;
static uint64_t accesses, unaligned, below;
/* The highest stack pointer so far, and how many bytes before it are the stack's for sure. */
static uint64_t highest;
#define STACK_BYTES 0x4000u
static int has_ended;

static void must(uc_err error) {
    if (error == UC_ERR_OK) return;
    fprintf(stderr, "boot_aligned: %s\n", uc_strerror(error));
    exit(2);
}

static uint64_t register_of(int name) {
    uint64_t value = 0;
    must(uc_reg_read(machine, name, &value));
    return value;
}

static void look(uc_engine *engine, uc_mem_type type, uint64_t address, int size, int64_t value, void *data) {
    const uint64_t pointer = register_of(UC_RISCV_REG_SP);
    (void)engine, (void)type, (void)value, (void)data;
    if (pointer > highest) highest = pointer;
    accesses++;
    unaligned += address % (uint64_t)size != 0;
    below += address < pointer && address >= highest - STACK_BYTES;
}

static uint64_t open_file(const char *name) {
    const size_t at = strcmp(name, "cases") == 0 ? 1 : 2;
    files[at] = fopen(name, at == 1 ? "rb" : "wb");
    return files[at] ? at : UINT64_MAX;
}

/* The bytes that didn't come. */
static uint64_t read_file(FILE *file, uint64_t place, size_t length) {
    const size_t count = fread(moved, 1, length, file);
    must(uc_mem_write(machine, place, moved, count));
    return length - count;
}

static uint64_t write_file(FILE *file, uint64_t place, size_t length) {
    must(uc_mem_read(machine, place, moved, length));
    return length - fwrite(moved, 1, length, file);
}

/* Does what the program asks for, and goes on behind it. */
static void asked(uc_engine *engine, uint64_t address, uint32_t size, void *data) {
    uint64_t words[3] = {0}, answer = 0, next = address + sizeof ASKS;
    const uint64_t what = register_of(UC_RISCV_REG_A0), with = register_of(UC_RISCV_REG_A1);
    (void)size, (void)data;
    if (what != OPEN && what != READ && what != WRITE && what != CLOSE) {
        has_ended = what == EXIT;
        must(uc_emu_stop(engine));
        return;
    }
    for (size_t i = 0; what != CLOSE && i < 3; i++) must(uc_mem_read(engine, with + i * word, &words[i], word));
    if (what == OPEN) {
        must(uc_mem_read(engine, words[0], moved, words[2] + 1));
        answer = open_file((const char *)moved);
    } else if (what != CLOSE) {
        if (words[0] > 2 || !files[words[0]] || words[2] > MOST_BYTES) exit(2);
        answer = (what == READ ? read_file : write_file)(files[words[0]], words[1], words[2]);
    }
    must(uc_reg_write(engine, UC_RISCV_REG_A0, &answer));
    must(uc_reg_write(engine, UC_RISCV_REG_PC, &next));
}

static void hook(int type, void *call, size_t bytes, uint64_t from, uint64_t to) {
    static uc_hook made[MOST_ASKING + 1];
    static size_t count;
    void *address;
    memcpy(&address, call, bytes);
    if (count > MOST_ASKING) exit(2);
    must(uc_hook_add(machine, &made[count++], type, address, NULL, from, to));
}

int main(int count, char **words) {
    void (*const at_access)(uc_engine *, uc_mem_type, uint64_t, int, int64_t, void *) = look;
    void (*const at_asking)(uc_engine *, uint64_t, uint32_t, void *) = asked;
    FILE *program = count == 3 ? fopen(words[2], "rb") : NULL;
    const int is_64 = program && strcmp(words[1], "64") == 0;
    size_t length;
    if (!program) return 2;
    word = is_64 ? 8 : 4;
    length = fread(moved, 1, MOST_BYTES, program);
    must(uc_open(UC_ARCH_RISCV, is_64 ? UC_MODE_RISCV64 : UC_MODE_RISCV32, &machine));
    must(uc_mem_map(machine, CODE, MEMORY - CODE, UC_PROT_READ | UC_PROT_EXEC));
    must(uc_mem_map(machine, MEMORY, MEMORY_BYTES, UC_PROT_READ | UC_PROT_WRITE));
    must(uc_mem_write(machine, CODE, moved, length));
    hook(UC_HOOK_MEM_READ | UC_HOOK_MEM_WRITE, (void *)&at_access, sizeof at_access, 1, 0);
    for (size_t at = 0; at + sizeof ASKS <= length; at += 2) {
        if (memcmp(moved + at, ASKS, sizeof ASKS) == 0) {
            hook(UC_HOOK_CODE, (void *)&at_asking, sizeof at_asking, CODE + at, CODE + at);
        }
    }
    must(uc_emu_start(machine, CODE, 0, 0, 0));
    if (!has_ended) return 2;
    for (size_t i = 1; i < 3; i++) {
        if (files[i]) fclose(files[i]);
    }
    printf("%llu accesses, %llu unaligned, %llu below\n", (unsigned long long)accesses,
           (unsigned long long)unaligned, (unsigned long long)below);
    return 0;
}
