/* The import table of thfpool, with all of its functions. */

#include <imports.h>

    import_table "thfpool", 1, 1
    import CreateFpl, 4
    import DeleteFpl, 5
    import AllocateFpl, 6
    import pAllocateFpl, 7
    import FreeFpl, 8
    import iFreeFpl, 9
    import ReferFplStatus, 11
    import iReferFplStatus, 12
    end_import_table
