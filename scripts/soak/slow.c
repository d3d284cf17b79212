/* Slows writes to a database, so that more looks fall into a checkpoint. With LD_PRELOAD: a page of the file whose name ends in /ci.db is
   written in two halves, SLOW_PAGE microseconds apart, and each short write of its log is followed by a pause of SLOW_HEAD. */
#define _GNU_SOURCE
#include <dlfcn.h>
#include <stdio.h>
#include <stdlib.h>
#include <string.h>
#include <unistd.h>

static long pause_of(const char *name) {
    const char *text = getenv(name);
    return text ? atol(text) : 0;
}

static int ends_in(int file, const char *end) {
    char link[64], path[4096];
    snprintf(link, sizeof link, "/proc/self/fd/%d", file);
    ssize_t length = readlink(link, path, sizeof path - 1);
    size_t wanted = strlen(end);
    if (length < (ssize_t)wanted) return 0;
    return !memcmp(path + length - wanted, end, wanted);
}

ssize_t pwrite64(int file, const void *bytes, size_t length, off64_t at) {
    static ssize_t (*write_at)(int, const void *, size_t, off64_t);
    if (!write_at) write_at = dlsym(RTLD_NEXT, "pwrite64");
    if (length > 512 && pause_of("SLOW_PAGE") && ends_in(file, "/ci.db")) {
        ssize_t first = write_at(file, bytes, length / 2, at);
        usleep(pause_of("SLOW_PAGE"));
        return first + write_at(file, (const char *)bytes + length / 2, length - length / 2, at + length / 2);
    }
    if (length <= 41 && pause_of("SLOW_HEAD") && ends_in(file, "/ci.db-wal")) usleep(pause_of("SLOW_HEAD"));
    return write_at(file, bytes, length, at);
}

ssize_t pwrite(int file, const void *bytes, size_t length, off_t at) { return pwrite64(file, bytes, length, at); }
