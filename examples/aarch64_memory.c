/* Memory for libcfi_c.a on AArch64, by malloc, realloc and free: the toolchain's own liblibc_c.a is for x86-64 alone.
 *
 * The proof of the library assumes the contracts of these three in the toolchain's crate libc: a block is the caller's
 * alone until it is freed, has the length and alignment asked for, and is not null, even if its length is 0. A failure
 * leaves everything as it was; its pointer isn't null either. Alignments are divisors of 16. */
#include <stdbool.h>
#include <stddef.h>
#include <stdlib.h>

_Static_assert(_Alignof(max_align_t) >= 16, "malloc aligns to 16, so that an alignment needs no care");

typedef struct {
    bool is_block;
    void *at;
} Tried;

static char nothing;

static Tried tried(void *block) {
    return (Tried){block != NULL, block ? block : &nothing};
}

/* A length of 0 asks for a byte: malloc may return null for it, and realloc may free the block. */
static size_t at_least_one(size_t length) {
    return length ? length : 1;
}

Tried rattle_alloc(size_t length, size_t alignment) {
    (void)alignment;
    return tried(malloc(at_least_one(length)));
}

/* The first bytes of the block, as many as kept says, are the same in the new one. */
Tried rattle_realloc(void *block, size_t kept, size_t length, size_t alignment) {
    (void)kept;
    (void)alignment;
    return tried(realloc(block, at_least_one(length)));
}

void rattle_dealloc(void *block) {
    free(block);
}
