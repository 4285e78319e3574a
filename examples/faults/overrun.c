/*
 * A stack that runs over. The stack of `digs` is the first that is taken, at the memory's end, and that of `keeps`
 * stands below it. `digs` calls itself until its 1,024 bytes are not enough: it stores where `keeps`, which sleeps
 * meanwhile, has the address that it returns to.
 */
#include <loadcore.h>
#include <stdio.h>
#include <thbase.h>

#define DEPTH 12

static int sleeps;

/* The sum of the numbers from 0 to a depth. Each call has a copy of its own of what the one before it had. */
static __attribute__((noinline)) int sum_below(int depth, const volatile int *before)
{
    volatile int numbers[16];
    int place;

    for (place = 0; place < 16; place++)
        numbers[place] = before[place] + depth;
    return depth == 0 ? numbers[0] : sum_below(depth - 1, numbers);
}

static void digs(void *argument)
{
    static const int none[16];

    printf("the sum is %d\n", sum_below((int)argument, none));
}

static void keeps(void *argument)
{
    (void)argument;
    DelayThread(1000);
    printf("slept\n");
    sleeps++; /* so that `keeps` returns by itself: gcc makes a jump of a call that comes last */
}

int _start(void)
{
    iop_thread_t digger = { .attr = TH_C, .thread = digs, .stacksize = 0x400, .priority = 21 };
    iop_thread_t keeper = { .attr = TH_C, .thread = keeps, .stacksize = 0x400, .priority = 20 };

    StartThread(CreateThread(&digger), (void *)DEPTH);
    StartThread(CreateThread(&keeper), 0);
    return MODULE_RESIDENT_END;
}
