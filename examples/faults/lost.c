/*
 * A wake-up that is lost. `waits` asks the device for something, here an alarm's handler, which sets an event flag. It
 * clears the flag before it waits, but not before it asks: where the handler is quicker, its flag is cleared, and
 * `waits` waits forever.
 */
#include <loadcore.h>
#include <stdio.h>
#include <thbase.h>
#include <thevent.h>

#define DONE 1

static int flag;

static unsigned int on_alarm(void *argument)
{
    (void)argument;
    iSetEventFlag(flag, DONE);
    return 0;
}

static void ask(void)
{
    iop_sys_clock_t time;

    USec2SysClock(10, &time);
    SetAlarm(&time, on_alarm, 0);
}

static void prepare(void)
{
    volatile int round;

    for (round = 0; round < 200; round++)
        ;
}

static void waits(void *argument)
{
    (void)argument;
    ask();
    prepare();
    ClearEventFlag(flag, ~DONE);
    WaitEventFlag(flag, DONE, WEF_AND, 0);
    printf("done\n");
}

int _start(void)
{
    iop_event_t none = { .attr = EA_SINGLE, .bits = 0 };
    iop_thread_t waiter = { .attr = TH_C, .thread = waits, .stacksize = 0x400, .priority = 20 };

    flag = CreateEventFlag(&none);
    StartThread(CreateThread(&waiter), 0);
    return MODULE_RESIDENT_END;
}
