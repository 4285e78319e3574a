/* The library vbcount, with its function. */

#include <exports.h>

    export_table "vbcount", 1, 1
    export vbcount_semaphore
    end_export_table
