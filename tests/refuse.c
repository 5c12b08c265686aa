// Preloaded into a program, refuses one of its requests for memory: the REFUSE-th since its start. At that moment it
// tells so.
#include "serve.h"
#include <errno.h>
#include <stdlib.h>

extern void *__libc_malloc(size_t), *__libc_calloc(size_t, size_t), *__libc_realloc(void *, size_t);

static long left;

void begin(void) {
    left = setting("REFUSE") ? atol(setting("REFUSE")) : 0;
}

// Whether this is the request, of whichever thread. The C library itself relies on errno where its request for the memory
// of a thread is refused.
static int is_refused(void) {
    if (__atomic_load_n(&left, __ATOMIC_RELAXED) <= 0 || __atomic_sub_fetch(&left, 1, __ATOMIC_RELAXED) != 0)
        return 0;
    tell();
    errno = ENOMEM;
    return 1;
}

void *malloc(size_t size) { return is_refused() ? NULL : __libc_malloc(size); }

void *calloc(size_t count, size_t size) { return is_refused() ? NULL : __libc_calloc(count, size); }

void *realloc(void *old, size_t size) { return is_refused() ? NULL : __libc_realloc(old, size); }
