/* The import table of sysmem, with all of its functions. */

#include <imports.h>

    import_table "sysmem", 1, 1
    import AllocSysMemory, 4
    import FreeSysMemory, 5
    import QueryMemSize, 6
    import QueryMaxFreeMemSize, 7
    import QueryTotalFreeMemSize, 8
    import QueryBlockTopAddress, 9
    import QueryBlockSize, 10
    import Kprintf, 14
    end_import_table
