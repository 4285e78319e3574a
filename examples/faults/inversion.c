/*
 * A priority inversion. `low` holds the semaphore for a short time. `high` waits for it, and so for `low`. But
 * `middle`, which wants nothing of either, is better than `low` and has much to do: it keeps `low` from giving the
 * semaphore back.
 */
#include <loadcore.h>
#include <stdio.h>
#include <thbase.h>
#include <thsemap.h>

static int semaphore;

static void compute(int rounds)
{
    volatile int round;

    for (round = 0; round < rounds; round++)
        ;
}

static void high(void *argument)
{
    (void)argument;
    DelayThread(200);
    printf("high wants the semaphore\n");
    WaitSema(semaphore);
    printf("high has the semaphore\n");
    SignalSema(semaphore);
}

static void middle(void *argument)
{
    (void)argument;
    DelayThread(300);
    compute(50000);
    printf("middle is done\n");
}

static void low(void *argument)
{
    (void)argument;
    WaitSema(semaphore);
    compute(2000);
    SignalSema(semaphore);
    printf("low is done\n");
}

int _start(void)
{
    iop_sema_t free = { .attr = SA_THPRI, .initial = 1, .max = 1 };
    iop_thread_t first = { .attr = TH_C, .thread = high, .stacksize = 0x400, .priority = 20 };
    iop_thread_t second = { .attr = TH_C, .thread = middle, .stacksize = 0x400, .priority = 21 };
    iop_thread_t third = { .attr = TH_C, .thread = low, .stacksize = 0x400, .priority = 22 };

    semaphore = CreateSema(&free);
    StartThread(CreateThread(&first), 0);
    StartThread(CreateThread(&second), 0);
    StartThread(CreateThread(&third), 0);
    return MODULE_RESIDENT_END;
}
