/* The import table of thevent, with all of its functions. */

#include <imports.h>

    import_table "thevent", 1, 1
    import CreateEventFlag, 4
    import DeleteEventFlag, 5
    import SetEventFlag, 6
    import iSetEventFlag, 7
    import ClearEventFlag, 8
    import iClearEventFlag, 9
    import WaitEventFlag, 10
    import PollEventFlag, 11
    import ReferEventFlagStatus, 13
    import iReferEventFlagStatus, 14
    end_import_table
