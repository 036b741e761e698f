/* Preloaded by tools/refusals: the Nth allocation, read of standard input or write of standard output
 * is refused or cut short. REFUSE_KIND is memory, read, write, short-read or short-write, and REFUSE_AT
 * is N, from 1. Each refusal is told by a byte on the descriptor REFUSE_FD. */
#define _GNU_SOURCE
#include <errno.h>
#include <stdlib.h>
#include <string.h>
#include <sys/syscall.h>
#include <unistd.h>

extern void *__libc_malloc(size_t);
extern void *__libc_calloc(size_t, size_t);
extern void *__libc_realloc(void *, size_t);
extern void *__libc_memalign(size_t, size_t);

static char kind[16];
static long at, told = -1, calls;

__attribute__((constructor)) static void begin(void) {
    const char *said = getenv("REFUSE_KIND"), *n = getenv("REFUSE_AT"), *fd = getenv("REFUSE_FD");
    if (said && n && fd) {
        strncpy(kind, said, sizeof kind - 1);
        at = atol(n);
        told = atol(fd);
    }
}

/* Whether this call of that kind is the one that is refused. */
static int refuses(const char *which) {
    if (told < 0 || strcmp(kind, which) != 0 || ++calls != at) return 0;
    syscall(SYS_write, told, "x", 1);
    return 1;
}

static int wants(void) {
    if (!refuses("memory")) return 0;
    errno = ENOMEM;
    return 1;
}

void *malloc(size_t size) { return wants() ? NULL : __libc_malloc(size); }
void *calloc(size_t count, size_t size) { return wants() ? NULL : __libc_calloc(count, size); }
void *realloc(void *old, size_t size) { return wants() ? NULL : __libc_realloc(old, size); }
void *memalign(size_t step, size_t size) { return wants() ? NULL : __libc_memalign(step, size); }
void *aligned_alloc(size_t step, size_t size) { return wants() ? NULL : __libc_memalign(step, size); }

int posix_memalign(void **made, size_t step, size_t size) {
    if (wants()) return ENOMEM;
    void *there = __libc_memalign(step, size);
    if (!there) return ENOMEM;
    *made = there;
    return 0;
}

ssize_t read(int from, void *buffer, size_t count) {
    if (from == 0 && refuses("read")) {
        errno = EIO;
        return -1;
    }
    if (from == 0 && count > 1 && refuses("short-read")) count = 1;
    return syscall(SYS_read, from, buffer, count);
}

ssize_t write(int to, const void *buffer, size_t count) {
    if (to == 1 && refuses("write")) {
        errno = EIO;
        return -1;
    }
    if (to == 1 && count > 1 && refuses("short-write")) count = 1;
    return syscall(SYS_write, to, buffer, count);
}
