/* What LD_PRELOAD puts between the program and the C library: it marks answers, and makes wrong programs of the right
   one.

   With ANSWERS, a mark `answers` comes before each write that isn't to standard error or to the state file (which gets
   `pwrite` alone). LEAVE_OUT, EARLY and AT_SYNC have the words `first`, `second` or both: the sync after the write of a
   slot, and the sync after the write of its gate, which is one byte. LEAVE_OUT leaves that sync out. EARLY sets the
   mark before that sync, as if the answer left then. AT_SYNC runs BEFORE, a command, once before that sync. */
#define _GNU_SOURCE
#include <dlfcn.h>
#include <stdlib.h>

#include "mark.h"

/* the bytes of the last write since a sync, or 0 */
static size_t written;

static int has(const char *variable, const char *word)
{
    const char *value = getenv(variable);
    return value && strstr(value, word);
}

static void answers(void)
{
    if (set_mark("answers") != 0)
        abort();
}

static int sync_by(int (*next)(int), int file)
{
    const char *which = written == 0 ? "none" : written == 1 ? "second" : "first";
    written = 0;
    if (has("EARLY", which))
        answers();
    if (has("AT_SYNC", which)) {
        const char *command = getenv("BEFORE");
        unsetenv("AT_SYNC");
        unsetenv("LD_PRELOAD");
        if (command && system(command) != 0)
            abort();
    }
    return has("LEAVE_OUT", which) ? 0 : next(file);
}

int fsync(int file)
{
    return sync_by((int (*)(int))dlsym(RTLD_NEXT, "fsync"), file);
}

int fdatasync(int file)
{
    return sync_by((int (*)(int))dlsym(RTLD_NEXT, "fdatasync"), file);
}

ssize_t write(int file, const void *from, size_t size)
{
    if (file != 2 && getenv("ANSWERS"))
        answers();
    return ((ssize_t (*)(int, const void *, size_t))dlsym(RTLD_NEXT, "write"))(file, from, size);
}

ssize_t pwrite(int file, const void *from, size_t size, off_t at)
{
    written = size;
    return ((ssize_t (*)(int, const void *, size_t, off_t))dlsym(RTLD_NEXT, "pwrite"))(file, from, size, at);
}

ssize_t pwrite64(int file, const void *from, size_t size, off64_t at)
{
    written = size;
    return ((ssize_t (*)(int, const void *, size_t, off64_t))dlsym(RTLD_NEXT, "pwrite64"))(file, from, size, at);
}
