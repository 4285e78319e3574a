/* The import table of thmsgbx, with all of its functions. */

#include <imports.h>

    import_table "thmsgbx", 1, 1
    import CreateMbx, 4
    import DeleteMbx, 5
    import SendMbx, 6
    import iSendMbx, 7
    import ReceiveMbx, 8
    import PollMbx, 9
    import ReferMbxStatus, 11
    import iReferMbxStatus, 12
    end_import_table
