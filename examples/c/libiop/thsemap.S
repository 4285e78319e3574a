/* The import table of thsemap, with all of its functions. */

#include <imports.h>

    import_table "thsemap", 1, 1
    import CreateSema, 4
    import DeleteSema, 5
    import SignalSema, 6
    import iSignalSema, 7
    import WaitSema, 8
    import PollSema, 9
    import ReferSemaStatus, 11
    import iReferSemaStatus, 12
    end_import_table
