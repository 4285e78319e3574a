/* A thread that waits for 5 vertical blanks, and tells each. */
#include <loadcore.h>
#include <stdio.h>
#include <thbase.h>
#include <thsemap.h>

#include "vbcount.h"

#define BLANKS 5

static void count_blanks(void *argument)
{
    int semaphore = (int)argument;
    int blank;

    for (blank = 1; blank <= BLANKS; blank++) {
        if (WaitSema(semaphore) != KE_OK)
            return;
        printf("tick %d\n", blank);
    }
    printf("done %d\n", BLANKS);
}

int _start(void)
{
    iop_thread_t counter = { .attr = TH_C, .thread = count_blanks, .stacksize = 0x800, .priority = 20 };
    int thread = CreateThread(&counter);

    if (thread < 0)
        return MODULE_NO_RESIDENT_END;
    if (StartThread(thread, (void *)vbcount_semaphore()) != KE_OK) {
        DeleteThread(thread);
        return MODULE_NO_RESIDENT_END;
    }
    return MODULE_RESIDENT_END; /* the thread runs on */
}
