/* The import table of thvpool, with all of its functions. */

#include <imports.h>

    import_table "thvpool", 1, 1
    import CreateVpl, 4
    import DeleteVpl, 5
    import AllocateVpl, 6
    import pAllocateVpl, 7
    import FreeVpl, 8
    import iFreeVpl, 9
    import ReferVplStatus, 11
    import iReferVplStatus, 12
    end_import_table
