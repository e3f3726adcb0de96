/* Refuses one request for memory: the one of the number REFUSED_REQUEST. It leaves the file REFUSED_MARK then. */
#define _GNU_SOURCE
#include <dlfcn.h>
#include <errno.h>
#include <fcntl.h>
#include <stddef.h>
#include <stdlib.h>
#include <unistd.h>

static long left = -1;

static int refused(void) {
    if (left < 0) {
        const char *text = getenv("REFUSED_REQUEST");
        left = text ? atol(text) : 0;
    }
    if (left == 0 || --left > 0) { return 0; }
    close(open(getenv("REFUSED_MARK"), O_CREAT | O_WRONLY, 0600));
    return 1;
}

#define REAL(name) __typeof__(name) *real = (__typeof__(name) *)dlsym(RTLD_NEXT, #name)

void *malloc(size_t size) {
    REAL(malloc);
    if (refused()) { errno = ENOMEM; return NULL; }
    return real(size);
}

void *realloc(void *old, size_t size) {
    REAL(realloc);
    if (refused()) { errno = ENOMEM; return NULL; }
    return real(old, size);
}

void *aligned_alloc(size_t alignment, size_t size) {
    REAL(aligned_alloc);
    if (refused()) { errno = ENOMEM; return NULL; }
    return real(alignment, size);
}

int posix_memalign(void **result, size_t alignment, size_t size) {
    REAL(posix_memalign);
    if (refused()) { return ENOMEM; }
    return real(result, alignment, size);
}
