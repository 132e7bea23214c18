/* Makes a program's calls that read and write files do only a part, or fail. It is loaded by LD_PRELOAD.

   PLANS has plans for files, with semicolons between them: PATH,r,WORD,.. for reads, or PATH,w,WORD,.. for writes. The
   words hold for these calls in turn, and the last one also for all later calls:
   - a number: the most bytes of a call; 0 is the end of the input, or of the room.
   - `all`: as many bytes as are asked for.
   - `failed`, `interrupted`, `memory`: the errors EIO, EINTR, ENOMEM.

   PATH,t,OFFSET,COUNT changes what is read: after COUNT reads of the byte at this offset the next ones give another.
   Files are recognized by their device and inode, so a plan holds for a standard stream, too. */
#define _GNU_SOURCE
#include <dlfcn.h>
#include <errno.h>
#include <stdlib.h>
#include <string.h>
#include <sys/stat.h>
#include <unistd.h>

enum { MOST_PLANS = 8 };

struct plan {
    const char *path;
    char kind;
    /* the remaining words */
    char *words;
    long reads;
};

static struct plan plans[MOST_PLANS];
static int count = -1;

static void begin(void)
{
    const char *given = getenv("PLANS");
    char *text = given ? strdup(given) : NULL, *rest = NULL, *entry;
    count = 0;
    for (entry = text ? strtok_r(text, ";", &rest) : NULL; entry; entry = strtok_r(NULL, ";", &rest)) {
        char *kind = strchr(entry, ',');
        char *words = kind ? strchr(kind + 1, ',') : NULL;
        if (!words || count == MOST_PLANS)
            abort();
        *kind++ = '\0';
        plans[count].path = entry;
        plans[count].kind = *kind;
        plans[count].words = words + 1;
        count++;
    }
}

/* The plan for this kind of calls on a file, if there is one. */
static struct plan *plan_of(int file, char kind)
{
    struct stat found, planned;
    int at;
    if (count < 0)
        begin();
    for (at = 0; at < count; at++)
        if (plans[at].kind == kind && fstat(file, &found) == 0 && stat(plans[at].path, &planned) == 0 &&
            found.st_dev == planned.st_dev && found.st_ino == planned.st_ino)
            return &plans[at];
    return NULL;
}

/* How many of `size` bytes the next call of this kind does; -1 where it fails, with errno set. */
static ssize_t size_of(int file, char kind, size_t size)
{
    struct plan *plan = plan_of(file, kind);
    char *word, *next;
    if (!plan)
        return size;
    word = plan->words;
    next = strchr(word, ',');
    if (next)
        plan->words = next + 1;
    if (*word >= '0' && *word <= '9') {
        size_t most = strtoul(word, NULL, 10);
        return size < most ? size : most;
    }
    if (*word == 'a')
        return size;
    errno = *word == 'i' ? EINTR : *word == 'm' ? ENOMEM : EIO;
    return -1;
}

/* Changes the byte that was read at an offset of a file, if a plan says so. */
static void turn(int file, void *into, ssize_t size, long long at)
{
    struct plan *plan = plan_of(file, 't');
    char *left;
    long long offset = plan ? strtoll(plan->words, &left, 10) : -1;
    if (offset < at || offset >= at + size)
        return;
    if (strtol(left + 1, NULL, 10) > plan->reads++)
        return;
    ((unsigned char *)into)[offset - at] ^= 0xff;
}

#define NEXT(name) ((__typeof__(&name))dlsym(RTLD_NEXT, #name))

ssize_t read(int file, void *into, size_t size)
{
    ssize_t part = size_of(file, 'r', size);
    return part < 0 ? part : NEXT(read)(file, into, part);
}

ssize_t write(int file, const void *from, size_t size)
{
    ssize_t part = size_of(file, 'w', size);
    return part < 0 ? part : NEXT(write)(file, from, part);
}

ssize_t pread(int file, void *into, size_t size, off_t at)
{
    ssize_t part = size_of(file, 'r', size);
    part = part < 0 ? part : NEXT(pread)(file, into, part, at);
    turn(file, into, part, at);
    return part;
}

ssize_t pwrite(int file, const void *from, size_t size, off_t at)
{
    ssize_t part = size_of(file, 'w', size);
    return part < 0 ? part : NEXT(pwrite)(file, from, part, at);
}

ssize_t pread64(int file, void *into, size_t size, off64_t at)
{
    ssize_t part = size_of(file, 'r', size);
    part = part < 0 ? part : NEXT(pread64)(file, into, part, at);
    turn(file, into, part, at);
    return part;
}

ssize_t pwrite64(int file, const void *from, size_t size, off64_t at)
{
    ssize_t part = size_of(file, 'w', size);
    return part < 0 ? part : NEXT(pwrite64)(file, from, part, at);
}
