/* The import table of sysclib, with all of its functions. */

#include <imports.h>

    import_table "sysclib", 1, 1
    import memchr, 10
    import memcmp, 11
    import memcpy, 12
    import memmove, 13
    import memset, 14
    import bzero, 17
    import sprintf, 19
    import strcat, 20
    import strchr, 21
    import strcmp, 22
    import strcpy, 23
    import strlen, 27
    import strncmp, 29
    import strncpy, 30
    import strrchr, 32
    import strtol, 36
    end_import_table
