/* A library to be loaded before a program's own (LD_PRELOAD), for bench/devices.py. It refuses one allocation: the one
   whose number, from 1, stands in the environment as REFUSED. The file that ALLOCATIONS names, of 8 bytes, gets how
   many there were. */
#define _GNU_SOURCE
#include <errno.h>
#include <fcntl.h>
#include <stddef.h>
#include <stdint.h>
#include <stdlib.h>
#include <sys/mman.h>
#include <unistd.h>

extern void *__libc_malloc(size_t);
extern void *__libc_calloc(size_t, size_t);
extern void *__libc_realloc(void *, size_t);
extern void *__libc_memalign(size_t, size_t);

static uint64_t *count;
static uint64_t refused;

__attribute__((constructor)) static void begin(void) {
    const char *number = getenv("REFUSED"), *path = getenv("ALLOCATIONS");
    if (number == NULL || path == NULL) {
        return;
    }
    refused = strtoull(number, NULL, 10);
    int file = open(path, O_RDWR);
    if (file >= 0) {
        void *mapped = mmap(NULL, sizeof *count, PROT_READ | PROT_WRITE, MAP_SHARED, file, 0);
        count = mapped == MAP_FAILED ? NULL : mapped;
        close(file);
    }
}

static int is_refused(void) {
    if (count == NULL || __sync_add_and_fetch(count, 1) != refused) {
        return 0;
    }
    errno = ENOMEM;
    return 1;
}

void *malloc(size_t size) {
    return is_refused() ? NULL : __libc_malloc(size);
}

void *calloc(size_t number, size_t size) {
    return is_refused() ? NULL : __libc_calloc(number, size);
}

void *realloc(void *old, size_t size) {
    return is_refused() ? NULL : __libc_realloc(old, size);
}

void *aligned_alloc(size_t alignment, size_t size) {
    return is_refused() ? NULL : __libc_memalign(alignment, size);
}

void *memalign(size_t alignment, size_t size) {
    return is_refused() ? NULL : __libc_memalign(alignment, size);
}

int posix_memalign(void **made, size_t alignment, size_t size) {
    if (is_refused()) {
        return ENOMEM;
    }
    *made = __libc_memalign(alignment, size);
    return *made == NULL ? ENOMEM : 0;
}
