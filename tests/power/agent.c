/* The first process of the guest. It loads the kernel's modules, and does what the host asks for on a serial port, one
   line for each request:

   - `run WORDS`: a shell runs them. The answer is the exit status, and what they print.
   - `look TYPE OPTIONS FILE ..`: mounts the device LOOKED_AT, as after a power cut, and unmounts it. The answer is the
     error of the mount, and then of each FILE its bytes.
   - `mark TEXT`: sets a mark in the log (mark.h).
   - `off`: the guest ends.

   Each part of an answer is a line `NUMBER LENGTH` and LENGTH bytes. NUMBER is an exit status, or an error of the
   kernel. */
#define _GNU_SOURCE
#include <stdlib.h>
#include <sys/mount.h>
#include <sys/reboot.h>
#include <sys/stat.h>
#include <sys/syscall.h>
#include <sys/wait.h>

#include "mark.h"

#define PORT "/dev/vport0p1"
#define LOOKED_AT "/dev/vdc"
#define PLACE "/look"

enum { MOST_BYTES = 1 << 22, MOST_WORDS = 16, MOST_TRIES = 6000 };

static char bytes[MOST_BYTES];
static FILE *port;

static void answer(int number, const char *data, size_t length)
{
    fprintf(port, "%d %zu\n", number, length);
    fwrite(data, 1, length, port);
}

/* All bytes of an open file, up to the end of the buffer. */
static size_t bytes_of(int file)
{
    size_t length = 0;
    ssize_t more;
    while (length < MOST_BYTES && (more = read(file, bytes + length, MOST_BYTES - length)) > 0)
        length += (size_t)more;
    return length;
}

static void answer_file(const char *path)
{
    int file = open(path, O_RDONLY);
    size_t length;
    if (file < 0) {
        answer(errno, "", 0);
        return;
    }
    errno = 0;
    length = bytes_of(file);
    answer(errno, bytes, length);
    close(file);
}

static void run(const char *line)
{
    int pipes[2], status = 0;
    size_t length;
    pid_t child;
    if (pipe(pipes) != 0 || (child = fork()) < 0) {
        answer(255, "", 0);
        return;
    }
    if (child == 0) {
        dup2(pipes[1], 1);
        dup2(pipes[1], 2);
        close(pipes[0]);
        close(pipes[1]);
        execl("/bin/sh", "sh", "-c", line, (char *)NULL);
        _exit(127);
    }
    close(pipes[1]);
    length = bytes_of(pipes[0]);
    close(pipes[0]);
    waitpid(child, &status, 0);
    answer(WIFEXITED(status) ? WEXITSTATUS(status) : 128 + WTERMSIG(status), bytes, length);
}

static void look(char *line)
{
    char *words[MOST_WORDS], *rest = NULL, *word;
    int count = 0, at;
    for (word = strtok_r(line, " ", &rest); word && count < MOST_WORDS; word = strtok_r(NULL, " ", &rest))
        words[count++] = word;
    if (count < 2 || mount(LOOKED_AT, PLACE, words[0], 0, strcmp(words[1], "-") ? words[1] : "") != 0) {
        answer(count < 2 ? EINVAL : errno, "", 0);
        return;
    }
    answer(0, "", 0);
    for (at = 2; at < count; at++) {
        char path[MOST_LINE];
        snprintf(path, sizeof path, "%s/%s", PLACE, words[at]);
        answer_file(path);
    }
    answer(umount(PLACE) == 0 ? 0 : errno, "", 0);
}

static void mark(const char *text)
{
    answer(set_mark(text), "", 0);
}

static void load_modules(void)
{
    char name[200], path[300];
    FILE *order = fopen("/modules/order", "r");
    while (order && fgets(name, sizeof name, order)) {
        int file;
        name[strcspn(name, "\n")] = '\0';
        snprintf(path, sizeof path, "/modules/%s", name);
        file = open(path, O_RDONLY);
        if (file < 0 || (syscall(SYS_finit_module, file, "", 0) != 0 && errno != EEXIST))
            printf("agent: %s: %s\n", name, strerror(errno));
        close(file);
    }
}

static void begin(void)
{
    setenv("PATH", "/bin:/sbin:/usr/bin:/usr/sbin", 1);
    setenv("HBSIGN_QUIET", "1", 1);
    mkdir(PLACE, 0755);
    if (mount("proc", "/proc", "proc", 0, "") || mount("sys", "/sys", "sysfs", 0, "") ||
        mount("dev", "/dev", "devtmpfs", 0, "") || mount("tmp", "/tmp", "tmpfs", 0, ""))
        puts("agent: not mounted");
    load_modules();
}

/* Waits for the port. Without one the guest ends. */
static void open_port(void)
{
    int tries;
    for (tries = 0; !(port = fopen(PORT, "r+")); tries++) {
        if (tries == MOST_TRIES) {
            puts("agent: no port");
            reboot(RB_POWER_OFF);
        }
        usleep(10000);
    }
}

int main(void)
{
    static char line[MOST_LINE];
    begin();
    open_port();
    for (;;) {
        if (!fgets(line, sizeof line, port)) {
            clearerr(port);
            usleep(10000);
            continue;
        }
        line[strcspn(line, "\n")] = '\0';
        if (strncmp(line, "run ", 4) == 0)
            run(line + 4);
        else if (strncmp(line, "look ", 5) == 0)
            look(line + 5);
        else if (strncmp(line, "mark ", 5) == 0)
            mark(line + 5);
        else
            break;
        fflush(port);
    }
    reboot(RB_POWER_OFF);
    return 0;
}
