/* Laid before the C library by LD_PRELOAD: reads and writes of the wheel's line that a signal breaks off, that move few bytes,
 * or that fail. BROKEN says which: "signal" breaks every second call off and lets the others move at most 5 and 7 bytes;
 * "first" lets the first write fail and the later ones succeed; "none" lets the first write take no byte. */
#define _GNU_SOURCE
#include <errno.h>
#include <stdlib.h>
#include <string.h>
#include <sys/syscall.h>
#include <unistd.h>

static int is_way(const char *way) {
    const char *broken = getenv("BROKEN");
    return broken != NULL && strcmp(broken, way) == 0;
}

ssize_t read(int file, void *bytes, size_t length) {
    static unsigned calls;
    if (file == 0 && is_way("signal")) {
        if (calls++ % 2 == 0) {
            errno = EINTR;
            return -1;
        }
        length = length < 5 ? length : 5;
    }
    return syscall(SYS_read, file, bytes, length);
}

ssize_t write(int file, const void *bytes, size_t length) {
    static unsigned calls;
    if (file == 1 && is_way("signal")) {
        if (calls++ % 2 == 0) {
            errno = EINTR;
            return -1;
        }
        length = length < 7 ? length : 7;
    }
    if (file == 1 && is_way("first") && calls++ == 0) {
        errno = EIO;
        return -1;
    }
    if (file == 1 && is_way("none") && calls++ == 0) {
        return 0;
    }
    return syscall(SYS_write, file, bytes, length);
}
