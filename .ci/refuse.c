// Stands before libc (LD_PRELOAD). Refuses the allocation of the number CFI_REFUSED; fails the writes to standard output from
// the number CFI_FAILED on, as on a full disk, and takes one byte alone of that of the number CFI_SHORT. Each allocation and
// each such write is a byte in the open file CFI_COUNTED, `a` or `w`.
#define _GNU_SOURCE
#include <dlfcn.h>
#include <errno.h>
#include <stdlib.h>
#include <unistd.h>

static ssize_t (*next_write)(int, const void *, size_t);
static void *(*next_malloc)(size_t), *(*next_realloc)(void *, size_t);
static long refused, failed, cut, allocations, writes;
static int counted;

static long number_of(const char *name) {
    const char *number = getenv(name);
    return number ? atol(number) : 0;
}

static void begin(void) {
    if (next_write)
        return;
    next_malloc = dlsym(RTLD_NEXT, "malloc");
    next_realloc = dlsym(RTLD_NEXT, "realloc");
    refused = number_of("CFI_REFUSED");
    failed = number_of("CFI_FAILED");
    cut = number_of("CFI_SHORT");
    counted = (int)number_of("CFI_COUNTED");
    next_write = dlsym(RTLD_NEXT, "write");
}

static int is_refused(void) {
    begin();
    if (counted && next_write(counted, "a", 1) != 1)
        _exit(99);
    if (++allocations != refused)
        return 0;
    errno = ENOMEM;
    return 1;
}

void *malloc(size_t size) {
    return is_refused() ? NULL : next_malloc(size);
}

void *realloc(void *old, size_t size) {
    return is_refused() ? NULL : next_realloc(old, size);
}

ssize_t write(int file, const void *bytes, size_t size) {
    begin();
    if (file != 1)
        return next_write(file, bytes, size);
    if (counted && next_write(counted, "w", 1) != 1)
        _exit(99);
    writes++;
    if (failed && writes >= failed) {
        errno = ENOSPC;
        return -1;
    }
    return next_write(file, bytes, writes == cut && size ? 1 : size);
}
