/* Sets a mark in the log of the mapped device LOGGED, as `dmsetup message` does in more time. */
#include <errno.h>
#include <fcntl.h>
#include <linux/dm-ioctl.h>
#include <stdio.h>
#include <string.h>
#include <sys/ioctl.h>
#include <unistd.h>

#define LOGGED "log"

enum { MOST_LINE = 4000 };

/* The error, or 0. */
static int set_mark(const char *text)
{
    static union {
        struct dm_ioctl head;
        char room[sizeof(struct dm_ioctl) + sizeof(struct dm_target_msg) + MOST_LINE];
    } call;
    int control = open("/dev/mapper/control", O_RDWR | O_CLOEXEC), error;
    struct dm_target_msg *message = (struct dm_target_msg *)(call.room + sizeof call.head);
    memset(&call, 0, sizeof call);
    call.head.version[0] = DM_VERSION_MAJOR;
    call.head.data_size = sizeof call;
    call.head.data_start = sizeof call.head;
    strcpy(call.head.name, LOGGED);
    snprintf(message->message, MOST_LINE, "mark %s", text);
    error = ioctl(control, DM_TARGET_MSG, &call) == 0 ? 0 : errno;
    close(control);
    return error;
}
