/*
 * Two threads, a semaphore and an alarm. Every 10 milliseconds the alarm signals the semaphore, for which one thread
 * waits; the other one sleeps for 14 milliseconds at a time. The run ends when both have returned.
 */
#include <loadcore.h>
#include <stdio.h>
#include <thbase.h>
#include <thsemap.h>

#define SIGNALS 3
#define SLEEPS 2

static int semaphore;
static iop_sys_clock_t interval;
static int signals;

/* How many milliseconds the clock has counted. */
static u32 milliseconds(void)
{
    iop_sys_clock_t now;
    u32 seconds, microseconds;

    GetSystemTime(&now);
    SysClock2USec(&now, &seconds, &microseconds);
    return seconds * 1000 + microseconds / 1000;
}

/* The alarm's handler. It calls the form for handlers, and must not wait. What it returns sets the alarm again. */
static unsigned int on_alarm(void *argument)
{
    (void)argument;
    iSignalSema(semaphore);
    signals++;
    return signals < SIGNALS ? interval.lo : 0;
}

static void wait_for_signals(void *argument)
{
    int signal;

    (void)argument;
    for (signal = 1; signal <= SIGNALS; signal++) {
        if (WaitSema(semaphore) != KE_OK)
            return;
        printf("%u ms: signal %d\n", milliseconds(), signal);
    }
    DeleteSema(semaphore);
    printf("no more signals\n");
}

static void sleep_for_a_time(void *argument)
{
    int sleep;

    for (sleep = 1; sleep <= SLEEPS; sleep++) {
        if (DelayThread((int)argument) != KE_OK)
            return;
        printf("%u ms: slept %d\n", milliseconds(), sleep);
    }
    printf("no more sleeps\n");
}

int _start(void)
{
    iop_sema_t counter = { .attr = SA_THFIFO, .initial = 0, .max = SIGNALS };
    iop_thread_t waits = { .attr = TH_C, .thread = wait_for_signals, .stacksize = 0x800, .priority = 20 };
    iop_thread_t sleeps = { .attr = TH_C, .thread = sleep_for_a_time, .stacksize = 0x800, .priority = 21 };
    int waiter, sleeper;

    semaphore = CreateSema(&counter);
    waiter = CreateThread(&waits);
    sleeper = CreateThread(&sleeps);
    USec2SysClock(10000, &interval);
    if (semaphore < 0 || waiter < 0 || sleeper < 0 || SetAlarm(&interval, on_alarm, 0) != KE_OK) {
        /* What was made is deleted. An error number is no id, and nothing is done for it. */
        DeleteThread(sleeper);
        DeleteThread(waiter);
        DeleteSema(semaphore);
        return MODULE_NO_RESIDENT_END;
    }
    /* A new thread can be started. The two begin when this one, of a better priority, has returned. */
    StartThread(waiter, 0);
    StartThread(sleeper, (void *)14000);
    printf("started\n");
    return MODULE_RESIDENT_END;
}
