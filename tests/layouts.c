/*
 * Compiled by tests/headers, and never run: the structures of examples/c/include have the words that docs/PROFILE.md
 * has a service read or write, and the constants their numbers.
 */
#include <intrman.h>
#include <irx.h>
#include <loadcore.h>
#include <stddef.h>
#include <sysmem.h>
#include <thbase.h>
#include <thevent.h>
#include <thfpool.h>
#include <thmsgbx.h>
#include <thsemap.h>
#include <thvpool.h>

#define IS(number, constant) _Static_assert((constant) == (number), #constant)
#define AT(place, structure, field) _Static_assert(offsetof(structure, field) == (place), #structure ", " #field)
#define WORD(number, structure, field)                                                                                 \
    AT(4 * (number), structure, field);                                                                                \
    _Static_assert(sizeof(((structure *)0)->field) == 4, #structure ", " #field " is no word")
/* A structure that a service reads has no word more. Of one that it writes the words behind those are not written. */
#define WORDS(count, structure) _Static_assert(sizeof(structure) == 4 * (count), #structure)

/* thbase: a time, CreateThread, ReferThreadStatus */
WORD(0, iop_sys_clock_t, lo);
WORD(1, iop_sys_clock_t, hi);
WORDS(2, iop_sys_clock_t);
WORD(0, iop_thread_t, attr);
WORD(1, iop_thread_t, option);
WORD(2, iop_thread_t, thread);
WORD(3, iop_thread_t, stacksize);
WORD(4, iop_thread_t, priority);
WORDS(5, iop_thread_t);
WORD(0, iop_thread_info_t, attr);
WORD(1, iop_thread_info_t, option);
WORD(2, iop_thread_info_t, status);
WORD(3, iop_thread_info_t, entry);
WORD(4, iop_thread_info_t, stack);
WORD(5, iop_thread_info_t, stackSize);
WORD(6, iop_thread_info_t, gpReg);
WORD(7, iop_thread_info_t, initPriority);
WORD(8, iop_thread_info_t, currentPriority);
WORD(9, iop_thread_info_t, waitType);
WORD(10, iop_thread_info_t, waitId);
WORD(11, iop_thread_info_t, wakeupCount);
WORD(12, iop_thread_info_t, regContext);
IS(0x03000000, TH_ASM | TH_C);
IS(0x02000000, TH_C);
IS(1, THS_RUN);
IS(2, THS_READY);
IS(4, THS_WAIT);
IS(8, THS_SUSPEND);
IS(0xC, THS_WAITSUSPEND);
IS(0x10, THS_DORMANT);
IS(1, TSW_SLEEP);
IS(2, TSW_DELAY);
IS(3, TSW_SEMA);
IS(4, TSW_EVENTFLAG);
IS(5, TSW_MBX);
IS(6, TSW_VPL);
IS(7, TSW_FPL);

/* thsemap: CreateSema, ReferSemaStatus */
WORD(0, iop_sema_t, attr);
WORD(1, iop_sema_t, option);
WORD(2, iop_sema_t, initial);
WORD(3, iop_sema_t, max);
WORDS(4, iop_sema_t);
WORD(0, iop_sema_info_t, attr);
WORD(1, iop_sema_info_t, option);
WORD(2, iop_sema_info_t, initial);
WORD(3, iop_sema_info_t, max);
WORD(4, iop_sema_info_t, current);
WORD(5, iop_sema_info_t, numWaitThreads);
AT(24, iop_sema_info_t, reserved);
IS(0, SA_THFIFO);
IS(1, SA_THPRI);

/* thevent: CreateEventFlag, ReferEventFlagStatus */
WORD(0, iop_event_t, attr);
WORD(1, iop_event_t, option);
WORD(2, iop_event_t, bits);
WORDS(3, iop_event_t);
WORD(0, iop_event_info_t, attr);
WORD(1, iop_event_info_t, option);
WORD(2, iop_event_info_t, initBits);
WORD(3, iop_event_info_t, currBits);
WORD(4, iop_event_info_t, numThreads);
WORD(5, iop_event_info_t, reserved1);
IS(0, EA_SINGLE);
IS(2, EA_MULTI);
IS(0, WEF_AND);
IS(1, WEF_OR);
IS(16, WEF_CLEAR);

/* thmsgbx: CreateMbx, ReferMbxStatus, a message */
WORD(0, iop_mbx_t, attr);
WORD(1, iop_mbx_t, option);
WORDS(2, iop_mbx_t);
WORD(0, iop_mbx_status_t, attr);
WORD(1, iop_mbx_status_t, option);
WORD(2, iop_mbx_status_t, numWaitThreads);
WORD(3, iop_mbx_status_t, numMessage);
WORD(4, iop_mbx_status_t, topPacket);
AT(20, iop_mbx_status_t, reserved);
AT(4, iop_message_t, priority);
_Static_assert(sizeof(((iop_message_t *)0)->priority) == 1, "a priority is a byte");
IS(0, MBA_THFIFO | MBA_MSFIFO);
IS(1, MBA_THPRI);
IS(4, MBA_MSPRI);

/* thvpool: CreateVpl, ReferVplStatus */
WORD(0, iop_vpl_param_t, attr);
WORD(1, iop_vpl_param_t, option);
WORD(2, iop_vpl_param_t, size);
WORDS(3, iop_vpl_param_t);
WORD(0, iop_vpl_info_t, attr);
WORD(1, iop_vpl_info_t, option);
WORD(2, iop_vpl_info_t, size);
WORD(3, iop_vpl_info_t, freeSize);
WORD(4, iop_vpl_info_t, maxFreeSize);
WORD(5, iop_vpl_info_t, numWaitThreads);
WORDS(6, iop_vpl_info_t);
IS(0, VA_THFIFO);
IS(1, VA_THPRI);

/* thfpool: CreateFpl, ReferFplStatus */
WORD(0, iop_fpl_param_t, attr);
WORD(1, iop_fpl_param_t, option);
WORD(2, iop_fpl_param_t, block_size);
WORD(3, iop_fpl_param_t, blocks);
WORDS(4, iop_fpl_param_t);
WORD(0, iop_fpl_info_t, attr);
WORD(1, iop_fpl_info_t, option);
WORD(2, iop_fpl_info_t, blockSize);
WORD(3, iop_fpl_info_t, numBlocks);
WORD(4, iop_fpl_info_t, freeBlocks);
WORD(5, iop_fpl_info_t, numWaitThreads);
WORDS(6, iop_fpl_info_t);
IS(0, FA_THFIFO);
IS(1, FA_THPRI);

/* loadcore: what a module returns; an export table ("Tables in memory" of docs/FORMATS.md) */
IS(0, MODULE_RESIDENT_END);
IS(1, MODULE_NO_RESIDENT_END);
IS(2, MODULE_REMOVABLE_END);
WORD(0, struct irx_export_table, magic);
AT(4, struct irx_export_table, next);
AT(8, struct irx_export_table, version);
AT(10, struct irx_export_table, mode);
AT(12, struct irx_export_table, name);
AT(20, struct irx_export_table, fptrs);

/* sysmem: modes of AllocSysMemory */
IS(0, ALLOC_FIRST);
IS(1, ALLOC_LAST);
IS(2, ALLOC_ADDRESS);
