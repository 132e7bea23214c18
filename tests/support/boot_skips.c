/*
 * Skips instructions of a program for aarch64, one in each run, and counts the runs that end as none should:
 *
 *     boot_skips PROGRAM CALLER CALLER_END ENTRY BOOTED HALTED PUBLIC MESSAGE SIGNATURE
 *
 * PROGRAM is a file of machine code for address BASE, and the other addresses are in hex. ENTRY is called with the
 * three parts, and should end in HALTED. Each instruction that it executes is skipped at its first and at its last
 * execution. It prints how many runs there were, and how many ended in BOOTED: those that skipped an instruction of the
 * caller, and the others, with the places of these.
 */
#include <stdio.h>
#include <stdlib.h>
#include <string.h>
#include <unicorn/unicorn.h>

#define BASE 0x100000u
#define CODE_BYTES 0x40000u
#define DATA 0x400000u
#define DATA_BYTES 0x40000u
#define STACK 0x600000u
#define STACK_BYTES 0x4000u
/* Where the linker puts the program's globals. */
#define GLOBALS 0x200000u
#define GLOBAL_BYTES 0x1000u
#define INSTRUCTION 4u
#define PLACES (CODE_BYTES / INSTRUCTION)
/* A run after a skip may take this many times as many blocks as one without. */
#define LONGER 3

/* x0 to x30, the stack pointer, the flags, and v0 to v31. */
#define REGISTERS (33 + 32)

enum { KEY, MESSAGE, SIGNATURE, PARTS };

/* The machine before an instruction: where it stands, and what is written. */
typedef struct {
    uint64_t place;
    uint64_t registers[REGISTERS][2];
    uint8_t stack[STACK_BYTES], globals[GLOBAL_BYTES];
} moment;

static uc_engine *machine;
static uint64_t caller, caller_end, entry, booted, halted, steps, blocks, most_blocks;
/* When each instruction is executed first and last, from 1 on. */
static uint64_t first[PLACES], last[PLACES];
static moment *moments;
static size_t moment_count;
static int names[REGISTERS];
static void *values[REGISTERS];

static void must(uc_err error) {
    if (error == UC_ERR_OK) return;
    fprintf(stderr, "boot_skips: %s\n", uc_strerror(error));
    exit(2);
}

static size_t load(const char *path, uint64_t address, size_t most) {
    uint8_t *bytes = malloc(most);
    FILE *file = fopen(path, "rb");
    size_t length;
    if (!file || !bytes) {
        perror(path);
        exit(2);
    }
    length = fread(bytes, 1, most, file);
    if (length > 0) must(uc_mem_write(machine, address, bytes, length));
    fclose(file);
    free(bytes);
    return length;
}

static void set(int name, uint64_t value) { must(uc_reg_write(machine, name, &value)); }

static uint64_t program_counter(void) {
    uint64_t value;
    must(uc_reg_read(machine, UC_ARM64_REG_PC, &value));
    return value;
}

/* The registers of a moment, for calls that read or write them all. */
static void **registers_of(moment *it) {
    for (int i = 0; i < REGISTERS; i++) values[i] = it->registers[i];
    return values;
}

static void name_registers(void) {
    for (int i = 0; i <= 28; i++) names[i] = UC_ARM64_REG_X0 + i;
    names[29] = UC_ARM64_REG_X29;
    names[30] = UC_ARM64_REG_X30;
    names[31] = UC_ARM64_REG_SP;
    names[32] = UC_ARM64_REG_NZCV;
    for (int i = 0; i < 32; i++) names[33 + i] = UC_ARM64_REG_V0 + i;
}

/* The first time: when each instruction is executed. */
static void note(uc_engine *engine, uint64_t address, uint32_t size, void *data) {
    const size_t place = (address - BASE) / INSTRUCTION;
    (void)engine, (void)size, (void)data;
    steps++;
    if (first[place] == 0) first[place] = steps;
    last[place] = steps;
}

/* The second time: the moments before what will be skipped. */
static void keep(uc_engine *engine, uint64_t address, uint32_t size, void *data) {
    const size_t place = (address - BASE) / INSTRUCTION;
    moment *it = &moments[moment_count];
    (void)size, (void)data;
    steps++;
    if (steps != first[place] && steps != last[place]) return;
    it->place = address;
    must(uc_reg_read_batch(engine, names, registers_of(it), REGISTERS));
    must(uc_mem_read(engine, STACK, it->stack, STACK_BYTES));
    must(uc_mem_read(engine, GLOBALS, it->globals, GLOBAL_BYTES));
    moment_count++;
}

/* Counts blocks of instructions, and stops what doesn't end. */
static void count_block(uc_engine *engine, uint64_t address, uint32_t size, void *data) {
    (void)address, (void)size, (void)data;
    blocks++;
    if (most_blocks && blocks > most_blocks) uc_emu_stop(engine);
}

static void stop(uc_engine *engine, uint64_t address, uint32_t size, void *data) {
    (void)address, (void)size, (void)data;
    uc_emu_stop(engine);
}

/* A machine with the program and its three parts. SIMD is on. */
static void build(char **words) {
    uint64_t parts[2 * PARTS], address = DATA + 0x1000;
    must(uc_open(UC_ARCH_ARM64, UC_MODE_ARM, &machine));
    must(uc_mem_map(machine, BASE, CODE_BYTES, UC_PROT_READ | UC_PROT_EXEC));
    must(uc_mem_map(machine, GLOBALS, GLOBAL_BYTES, UC_PROT_READ | UC_PROT_WRITE));
    must(uc_mem_map(machine, DATA, DATA_BYTES, UC_PROT_READ | UC_PROT_WRITE));
    must(uc_mem_map(machine, STACK, STACK_BYTES, UC_PROT_READ | UC_PROT_WRITE));
    load(words[1], BASE, CODE_BYTES);
    for (size_t i = KEY; i < PARTS; i++) {
        parts[2 * i] = address;
        parts[2 * i + 1] = load(words[7 + i], address, DATA + DATA_BYTES - address);
        address += (parts[2 * i + 1] + 0xfff) & ~(uint64_t)0xfff;
    }
    must(uc_mem_write(machine, DATA, parts, sizeof parts));
    must(uc_mem_protect(machine, DATA, DATA_BYTES, UC_PROT_READ));
    set(UC_ARM64_REG_CPACR_EL1, 3u << 20);
}

static void hook(int type, void (*call)(uc_engine *, uint64_t, uint32_t, void *), uint64_t from, uint64_t to,
                 uc_hook *made) {
    void *address;
    memcpy(&address, &call, sizeof address);
    must(uc_hook_add(machine, made, type, address, NULL, from, to));
}

/* Runs the program as it is, with a stack of old bytes. */
static void run_whole(void (*each)(uc_engine *, uint64_t, uint32_t, void *)) {
    static uint8_t old[STACK_BYTES];
    uc_hook made;
    hook(UC_HOOK_CODE, each, BASE, BASE + CODE_BYTES, &made);
    memset(old, 0xa5, sizeof old);
    must(uc_mem_write(machine, STACK, old, sizeof old));
    set(UC_ARM64_REG_X0, DATA);
    set(UC_ARM64_REG_SP, STACK + STACK_BYTES - 256);
    set(UC_ARM64_REG_LR, halted);
    steps = blocks = 0;
    must(uc_emu_start(machine, entry, 0, 0, 0));
    must(uc_hook_del(machine, made));
    if (program_counter() == halted) return;
    fprintf(stderr, "boot_skips: it doesn't halt\n");
    exit(2);
}

/* Whether the program ends in BOOTED if it goes on behind the instruction of a moment. */
static int boots_without(moment *it) {
    must(uc_reg_write_batch(machine, names, registers_of(it), REGISTERS));
    must(uc_mem_write(machine, STACK, it->stack, STACK_BYTES));
    must(uc_mem_write(machine, GLOBALS, it->globals, GLOBAL_BYTES));
    blocks = 0;
    return uc_emu_start(machine, it->place + INSTRUCTION, 0, 0, 0) == UC_ERR_OK && program_counter() == booted;
}

static size_t moments_to_keep(void) {
    size_t count = 0;
    for (size_t i = 0; i < PLACES; i++) count += (size_t)(first[i] != 0) + (size_t)(last[i] != first[i]);
    return count;
}

int main(int count, char **words) {
    uint64_t *const addresses[] = {&caller, &caller_end, &entry, &booted, &halted};
    static uint64_t places[PLACES];
    size_t of_caller = 0, others = 0;
    uc_hook ends[3];
    if (count != 10) return 2;
    for (size_t i = 0; i < 5; i++) *addresses[i] = strtoull(words[2 + i], NULL, 16);
    name_registers();
    build(words);
    hook(UC_HOOK_CODE, stop, booted, booted, &ends[0]);
    hook(UC_HOOK_CODE, stop, halted, halted, &ends[1]);
    hook(UC_HOOK_BLOCK, count_block, BASE, BASE + CODE_BYTES, &ends[2]);
    run_whole(note);
    moments = malloc((moments_to_keep() + 1) * sizeof *moments);
    if (!moments) return 2;
    most_blocks = LONGER * blocks;
    run_whole(keep);
    for (size_t i = 0; i < moment_count; i++) {
        const uint64_t place = moments[i].place;
        if (!boots_without(&moments[i])) continue;
        if (place >= caller && place < caller_end) of_caller++;
        else places[others++] = place;
    }
    printf("%zu runs, %zu of the caller, %zu others\n", moment_count, of_caller, others);
    for (size_t i = 0; i < others; i++) printf("%llx\n", (unsigned long long)places[i]);
    return 0;
}
