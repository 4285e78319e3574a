/*
 * A semaphore that counts vertical blanks, behind the library vbcount: prod.c signals it, cons.c waits for it. This
 * module is loaded first, since the other two are linked to its library.
 */
#include <irx.h>
#include <loadcore.h>
#include <thsemap.h>

#include "vbcount.h"

/* The export table of vb_exports.S. */
extern struct irx_export_table _exp_vbcount;

static int semaphore;

int vbcount_semaphore(void)
{
    return semaphore;
}

int _start(void)
{
    iop_sema_t counter = { .attr = SA_THFIFO, .initial = 0, .max = 200 };

    semaphore = CreateSema(&counter);
    if (semaphore < 0)
        return MODULE_NO_RESIDENT_END;
    if (RegisterLibraryEntries(&_exp_vbcount) != KE_OK) {
        DeleteSema(semaphore);
        return MODULE_NO_RESIDENT_END;
    }
    return MODULE_RESIDENT_END;
}
