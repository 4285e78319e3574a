/* The library tally, with its functions in order. */

#include <exports.h>

    export_table "tally", 1, 1
    export tally_add
    export tally_total
    end_export_table
