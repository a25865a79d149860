/* An allocator that refuses one request for memory, for tests/real/memory: preloaded, it stands before the C library's. The
 * variable REFUSE is the number of the request that finds no memory, from 1, and with REFUSE_ALL set all later ones find none
 * either. The file that REFUSED names is made at that moment, so that it is known whether there was such a request. */
#define _GNU_SOURCE
#include <errno.h>
#include <fcntl.h>
#include <stdatomic.h>
#include <stddef.h>
#include <stdlib.h>
#include <unistd.h>

extern void *__libc_malloc(size_t);
extern void *__libc_calloc(size_t, size_t);
extern void *__libc_realloc(void *, size_t);
extern void *__libc_memalign(size_t, size_t);

static atomic_ulong requests;
static unsigned long refused_at, refuse_all;

__attribute__((constructor)) static void begin(void) {
    const char *number = getenv("REFUSE");
    refused_at = number ? strtoul(number, NULL, 10) : 0;
    refuse_all = getenv("REFUSE_ALL") != NULL;
}

static void tell(void) {
    const char *path = getenv("REFUSED");
    int file = path ? open(path, O_WRONLY | O_CREAT, 0600) : -1;
    if (file >= 0) close(file);
}

static int is_refused(void) {
    unsigned long number = atomic_fetch_add(&requests, 1) + 1;
    if (!refused_at) return 0;
    if (number == refused_at || (refuse_all && number > refused_at)) {
        if (number == refused_at) tell();
        errno = ENOMEM;
        return 1;
    }
    return 0;
}

void *malloc(size_t size) { return is_refused() ? NULL : __libc_malloc(size); }
void *calloc(size_t count, size_t size) { return is_refused() ? NULL : __libc_calloc(count, size); }
void *realloc(void *old, size_t size) { return is_refused() ? NULL : __libc_realloc(old, size); }
void *memalign(size_t alignment, size_t size) { return is_refused() ? NULL : __libc_memalign(alignment, size); }
void *aligned_alloc(size_t alignment, size_t size) { return memalign(alignment, size); }
int posix_memalign(void **to, size_t alignment, size_t size) {
    void *got = memalign(alignment, size);
    if (!got) return ENOMEM;
    *to = got;
    return 0;
}
