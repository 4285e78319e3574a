/*
 * Functions of C's header of the same name. They are services of sysclib; for a module with memory functions of its own
 * memcpy, memmove, memset and memcmp are those of libiop/memory.c.
 */
#ifndef STRING_H
#define STRING_H

#include <sysclib.h>

#endif
