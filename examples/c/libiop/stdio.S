/* The import table of stdio, with all of its functions. */

#include <imports.h>

    import_table "stdio", 1, 1
    import printf, 4
    end_import_table
