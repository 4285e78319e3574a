/* For modules: blocks of memory by the names of C, which are taken of the machine; and what examples/c has. */
#ifndef STDLIB_H
#define STDLIB_H

#include <sysclib.h>
#include <sysmem.h>

static inline void *malloc(size_t size)
{
    return AllocSysMemory(ALLOC_FIRST, size, 0);
}

static inline void free(void *block)
{
    FreeSysMemory(block);
}

static inline void *realloc(void *block, size_t size)
{
    void *other = malloc(size);
    size_t held;

    if (block && other) {
        held = QueryBlockSize(block);
        memcpy(other, block, held < size ? held : size);
        free(block);
    }
    return other;
}

#endif
