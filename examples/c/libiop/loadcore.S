/* The import table of loadcore, with all of its functions. */

#include <imports.h>

    import_table "loadcore", 1, 1
    import FlushIcache, 4
    import FlushDcache, 5
    import RegisterLibraryEntries, 6
    import ReleaseLibraryEntries, 7
    end_import_table
