/* Signals the semaphore of vbcount at each vertical blank. */
#include <intrman.h>
#include <loadcore.h>
#include <thsemap.h>

#include "vbcount.h"

/* The handler of the line. It is no thread: it calls the form for handlers, and must not wait. */
static int on_blank(void *semaphore)
{
    iSignalSema((int)semaphore);
    return 1; /* the line is enabled again */
}

int _start(void)
{
    void *semaphore = (void *)vbcount_semaphore();

    if (RegisterIntrHandler(IOP_IRQ_VBLANK, 1, on_blank, semaphore) != KE_OK)
        return MODULE_NO_RESIDENT_END;
    EnableIntr(IOP_IRQ_VBLANK); /* a line that takes a handler can be enabled */
    return MODULE_RESIDENT_END;
}
