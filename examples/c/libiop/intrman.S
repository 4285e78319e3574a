/* The import table of intrman, with all of its functions. */

#include <imports.h>

    import_table "intrman", 1, 1
    import RegisterIntrHandler, 4
    import ReleaseIntrHandler, 5
    import EnableIntr, 6
    import DisableIntr, 7
    import CpuDisableIntr, 8
    import CpuEnableIntr, 9
    import CpuSuspendIntr, 17
    import CpuResumeIntr, 18
    import QueryIntrContext, 23
    end_import_table
