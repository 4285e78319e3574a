/*
 * The functions that the compiler may call by itself, to copy a structure for example, for a module that does not take
 * them from sysclib: the Makefile links this file to those whose memory_NAME is own. Each goes byte by byte, and the
 * Makefile compiles it so that no loop becomes a call of the function that it stands in.
 */
#include <string.h>

void *memcpy(void *to, const void *from, size_t count)
{
    unsigned char *target = to;
    const unsigned char *source = from;

    while (count--)
        *target++ = *source++;
    return to;
}

/* The ranges may overlap. So the copy begins at the end that is not overwritten before it is read. */
void *memmove(void *to, const void *from, size_t count)
{
    unsigned char *target = to;
    const unsigned char *source = from;

    if (target <= source)
        return memcpy(to, from, count);
    while (count--)
        target[count] = source[count];
    return to;
}

void *memset(void *to, int byte, size_t count)
{
    unsigned char *target = to;

    while (count--)
        *target++ = byte;
    return to;
}

int memcmp(const void *left, const void *right, size_t count)
{
    const unsigned char *a = left, *b = right;

    for (; count--; a++, b++)
        if (*a != *b)
            return *a - *b;
    return 0;
}
