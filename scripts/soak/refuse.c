/* Refuses one allocation of a program, the one of a given number: scripts/soak/refusals preloads this.
 *
 * REFUSE_IN names the program, so that the programs which it starts are left alone. REFUSE_AT is the number of the allocation, from 1.
 * REFUSE_FD is a file descriptor that gets a byte when it is refused. */
#define _GNU_SOURCE
#include <errno.h>
#include <stdlib.h>
#include <string.h>
#include <unistd.h>

extern void *__libc_malloc(size_t);
extern void *__libc_realloc(void *, size_t);

static long left = -1;
static int told = -1;

__attribute__((constructor)) static void begin(void) {
    const char *name = getenv("REFUSE_IN");
    const char *at = getenv("REFUSE_AT");
    const char *fd = getenv("REFUSE_FD");
    if (name && at && fd && strcmp(name, program_invocation_short_name) == 0) {
        told = atoi(fd);
        left = atol(at);
    }
}

static int is_refused(void) {
    if (left < 0 || --left != 0)
        return 0;
    left = -1;
    if (write(told, "", 1) != 1)
        abort();
    errno = ENOMEM;
    return 1;
}

void *malloc(size_t size) {
    return is_refused() ? NULL : __libc_malloc(size);
}

void *realloc(void *block, size_t size) {
    return is_refused() ? NULL : __libc_realloc(block, size);
}
