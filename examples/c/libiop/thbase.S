/* The import table of thbase, with all of its functions. */

#include <imports.h>

    import_table "thbase", 1, 1
    import CreateThread, 4
    import DeleteThread, 5
    import StartThread, 6
    import ExitThread, 8
    import ExitDeleteThread, 9
    import TerminateThread, 10
    import iTerminateThread, 11
    import DisableDispatchThread, 12
    import EnableDispatchThread, 13
    import ChangeThreadPriority, 14
    import iChangeThreadPriority, 15
    import RotateThreadReadyQueue, 16
    import iRotateThreadReadyQueue, 17
    import ReleaseWaitThread, 18
    import iReleaseWaitThread, 19
    import GetThreadId, 20
    import ReferThreadStatus, 22
    import iReferThreadStatus, 23
    import SleepThread, 24
    import WakeupThread, 25
    import iWakeupThread, 26
    import CancelWakeupThread, 27
    import iCancelWakeupThread, 28
    import SuspendThread, 29
    import iSuspendThread, 30
    import ResumeThread, 31
    import iResumeThread, 32
    import DelayThread, 33
    import GetSystemTime, 34
    import SetAlarm, 35
    import iSetAlarm, 36
    import CancelAlarm, 37
    import iCancelAlarm, 38
    import USec2SysClock, 39
    import SysClock2USec, 40
    end_import_table
