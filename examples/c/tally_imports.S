/* The import table of tally, for the modules that call it. */

#include <imports.h>

    import_table "tally", 1, 1
    import tally_add, 4
    import tally_total, 5
    end_import_table
