/* The import table of vbcount, for the modules that call it. */

#include <imports.h>

    import_table "vbcount", 1, 1
    import vbcount_semaphore, 4
    end_import_table
