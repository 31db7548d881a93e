/* For refused-memory.sh: a library that is loaded before the C library. It refuses one call for memory, the one numbered
 * REFUSE_AT from 1 on, and makes the file REFUSE_LOG where that call came. */
#define _GNU_SOURCE
#include <dlfcn.h>
#include <errno.h>
#include <fcntl.h>
#include <stdatomic.h>
#include <stddef.h>
#include <stdlib.h>
#include <unistd.h>

static atomic_ulong calls;

static int is_refused(void) {
    static unsigned long at;
    static int is_read;
    if (!is_read) {
        const char *text = getenv("REFUSE_AT");
        at = text ? strtoul(text, NULL, 10) : 0;
        is_read = 1;
    }
    if (at == 0 || atomic_fetch_add(&calls, 1) + 1 != at) return 0;
    const char *log = getenv("REFUSE_LOG");
    int file = log ? open(log, O_CREAT | O_WRONLY, 0600) : -1;
    if (file >= 0) close(file);
    errno = ENOMEM;
    return 1;
}

void *malloc(size_t size) {
    static void *(*real)(size_t);
    if (!real) real = (void *(*)(size_t))dlsym(RTLD_NEXT, "malloc");
    return is_refused() ? NULL : real(size);
}

void *realloc(void *old, size_t size) {
    static void *(*real)(void *, size_t);
    if (!real) real = (void *(*)(void *, size_t))dlsym(RTLD_NEXT, "realloc");
    return is_refused() ? NULL : real(old, size);
}

void *aligned_alloc(size_t alignment, size_t size) {
    static void *(*real)(size_t, size_t);
    if (!real) real = (void *(*)(size_t, size_t))dlsym(RTLD_NEXT, "aligned_alloc");
    return is_refused() ? NULL : real(alignment, size);
}

int posix_memalign(void **out, size_t alignment, size_t size) {
    static int (*real)(void **, size_t, size_t);
    if (!real) real = (int (*)(void **, size_t, size_t))dlsym(RTLD_NEXT, "posix_memalign");
    return is_refused() ? ENOMEM : real(out, alignment, size);
}
