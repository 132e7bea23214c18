/* Counts a program's growths of memory (calls of malloc and realloc), and refuses some. It is loaded by LD_PRELOAD.

   - REFUSE=N: growth N alone is refused, and the file REFUSED is then made.
   - REFUSE=each: each growth is refused in turn, from the first on, in a copy of the process that goes on from there.
     So nothing before a growth runs twice, and none is refused to the process itself. The output of the copy for growth
     N goes to the file N in the folder REFUSED, which is made before the copy. JOBS copies run at once, and a process
     exits after all of its copies.
   - GROWTHS=FILE: the process writes its number of growths to FILE when it exits. */
#define _GNU_SOURCE
#include <dlfcn.h>
#include <fcntl.h>
#include <stdio.h>
#include <stdlib.h>
#include <string.h>
#include <sys/wait.h>
#include <unistd.h>

enum { NONE, ONE, EACH, COPY };

static int is_begun = 0;
static int mode = NONE;
static long wanted = 0;
static long count = 0;
static long jobs = 1;
static long running = 0;

static void begin(void)
{
    const char *word = getenv("REFUSE");
    const char *most = getenv("JOBS");
    is_begun = 1;
    if (word && strcmp(word, "each") == 0) {
        mode = EACH;
        jobs = most && atol(most) > 0 ? atol(most) : 1;
    } else if (word && atol(word) > 0) {
        mode = ONE;
        wanted = atol(word);
    }
}

static void make_file(const char *path)
{
    int file = path ? open(path, O_WRONLY | O_CREAT, 0666) : -1;
    if (file >= 0)
        close(file);
}

/* Makes a copy of the process, and says whether this one is the copy, in which the growth is refused. */
static int is_copy(void)
{
    const char *folder = getenv("REFUSED");
    char path[4096];
    int file;
    pid_t copy;
    if (!folder || snprintf(path, sizeof path, "%s/%ld", folder, count) >= (int)sizeof path)
        abort();
    for (; running >= jobs; running--)
        wait(NULL);
    file = open(path, O_WRONLY | O_CREAT | O_EXCL, 0666);
    copy = file < 0 ? -1 : fork();
    if (copy < 0)
        abort();
    if (copy > 0) {
        close(file);
        running++;
        return 0;
    }
    mode = COPY;
    running = 0;
    if (dup2(file, 1) < 0 || dup2(file, 2) < 0)
        abort();
    close(file);
    return 1;
}

static int is_refused(void)
{
    if (!is_begun)
        begin();
    count++;
    if (mode == EACH)
        return is_copy();
    if (mode != ONE || count != wanted)
        return 0;
    make_file(getenv("REFUSED"));
    return 1;
}

__attribute__((destructor)) static void end(void)
{
    const char *path = getenv("GROWTHS");
    char line[32];
    int file;
    for (; running > 0; running--)
        wait(NULL);
    if (!path || mode == COPY)
        return;
    snprintf(line, sizeof line, "%ld\n", count);
    file = open(path, O_WRONLY | O_CREAT | O_TRUNC, 0666);
    if (file < 0 || write(file, line, strlen(line)) < 0)
        abort();
    close(file);
}

void *malloc(size_t size)
{
    static void *(*next)(size_t);
    if (!next)
        next = (void *(*)(size_t))dlsym(RTLD_NEXT, "malloc");
    return is_refused() ? NULL : next(size);
}

void *realloc(void *old, size_t size)
{
    static void *(*next)(void *, size_t);
    if (!next)
        next = (void *(*)(void *, size_t))dlsym(RTLD_NEXT, "realloc");
    return is_refused() ? NULL : next(old, size);
}
