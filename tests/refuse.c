/*
 * Compiled by tests/refused_memory, and loaded in front of the C library: it refuses the allocation whose number stands
 * as REFUSED in the environment, counted from 1, makes the file of the name REFUSED_MARK, and passes all others on.
 */
#include <errno.h>
#include <fcntl.h>
#include <stddef.h>
#include <stdlib.h>
#include <unistd.h>

void *__libc_malloc(size_t size);
void *__libc_calloc(size_t count, size_t size);
void *__libc_realloc(void *old, size_t size);

/* How many allocations there are up to the refused one. 0: it has been, or none is to be; below 0: not read yet. */
static long left = -1;

static int is_refused(void)
{
    if (left < 0) {
        const char *number = getenv("REFUSED");
        left = number ? atol(number) : 0;
    }
    if (left == 0 || --left > 0)
        return 0;
    close(creat(getenv("REFUSED_MARK"), 0600));
    errno = ENOMEM;
    return 1;
}

void *malloc(size_t size) { return is_refused() ? NULL : __libc_malloc(size); }

void *calloc(size_t count, size_t size) { return is_refused() ? NULL : __libc_calloc(count, size); }

void *realloc(void *old, size_t size) { return is_refused() ? NULL : __libc_realloc(old, size); }
