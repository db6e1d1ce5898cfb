/* The three functions by which the proved library asks for memory, over those of the C library,
 * which align a block to each power of two up to 16 that divides its size. */
#include <stdbool.h>
#include <stddef.h>
#include <stdint.h>
#include <stdlib.h>
#include <string.h>

struct tried {
    bool ok;
    void *block;
};

static struct tried tried(void *block) { return (struct tried){block != NULL, block}; }

struct tried rattle_alloc(size_t size, size_t align) {
    if (align <= 16) return tried(malloc(size ? size : 1));
    /* Of a larger alignment, a power of two, the size is to be a multiple. */
    if (size > PTRDIFF_MAX - align) return tried(NULL);
    size_t whole = (size + align - 1) / align * align;
    return tried(aligned_alloc(align, whole ? whole : align));
}

struct tried rattle_realloc(void *block, size_t kept, size_t size, size_t align) {
    if (align <= 16) return tried(realloc(block, size ? size : 1));
    struct tried moved = rattle_alloc(size, align);
    if (moved.ok && kept) memcpy(moved.block, block, kept < size ? kept : size);
    if (moved.ok) free(block);
    return moved;
}

void rattle_dealloc(void *block) { free(block); }
