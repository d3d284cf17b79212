/* Fails one call of a program on a pipe, or on a program that it starts: scripts/soak/hostile preloads this.
 *
 * FAIL_IN names the program, so that the programs which it starts are left alone. FAIL_CALL is start, write, read or wait, FAIL_AT the number of the
 * call, from 1, and FAIL_WITH the number of the error. With FAIL_SHORT each call on a pipe moves one byte at most. */
#define _GNU_SOURCE
#include <dlfcn.h>
#include <errno.h>
#include <spawn.h>
#include <stdlib.h>
#include <string.h>
#include <sys/stat.h>
#include <sys/wait.h>
#include <unistd.h>

static const char *call;
static long left;
static int with, is_short;

__attribute__((constructor)) static void begin(void) {
    const char *name = getenv("FAIL_IN"), *at = getenv("FAIL_AT"), *number = getenv("FAIL_WITH");
    if (name && at && number && strcmp(name, program_invocation_short_name) == 0) {
        call = getenv("FAIL_CALL");
        left = atol(at);
        with = atoi(number);
        is_short = getenv("FAIL_SHORT") != NULL;
    }
}

static int fails(const char *which) {
    return call && strcmp(call, which) == 0 && left > 0 && --left == 0;
}

static int is_pipe(int fd) {
    struct stat about;
    return fd > 2 && fstat(fd, &about) == 0 && S_ISFIFO(about.st_mode);
}

static ssize_t moved(int fd, void *bytes, size_t count, const char *which, ssize_t (*real)(int, void *, size_t)) {
    if (!is_pipe(fd))
        return real(fd, bytes, count);
    if (fails(which)) {
        errno = with;
        return -1;
    }
    return real(fd, bytes, is_short && count > 1 ? 1 : count);
}

ssize_t read(int fd, void *bytes, size_t count) {
    return moved(fd, bytes, count, "read", (ssize_t (*)(int, void *, size_t))dlsym(RTLD_NEXT, "read"));
}

ssize_t write(int fd, const void *bytes, size_t count) {
    return moved(fd, (void *)bytes, count, "write", (ssize_t (*)(int, void *, size_t))dlsym(RTLD_NEXT, "write"));
}

pid_t waitpid(pid_t pid, int *status, int options) {
    if (fails("wait")) {
        errno = with;
        return -1;
    }
    return ((pid_t (*)(pid_t, int *, int))dlsym(RTLD_NEXT, "waitpid"))(pid, status, options);
}

typedef int spawn(pid_t *, const char *, const posix_spawn_file_actions_t *, const posix_spawnattr_t *, char *const[], char *const[]);

int posix_spawn(pid_t *pid, const char *path, const posix_spawn_file_actions_t *actions, const posix_spawnattr_t *how, char *const words[], char *const env[]) {
    return fails("start") ? with : ((spawn *)dlsym(RTLD_NEXT, "posix_spawn"))(pid, path, actions, how, words, env);
}
