/*
 * A message that is used after it was freed. `prints` gives each buffer back to the pool before it has printed what
 * the buffer holds: `fills`, which waits for it and has the better priority, fills it again before.
 */
#include <loadcore.h>
#include <stdio.h>
#include <thbase.h>
#include <thfpool.h>
#include <thmsgbx.h>

#define BUFFERS 2
#define NUMBERS 4

struct buffer {
    iop_message_t head;
    int number;
};

static int pool;
static int mailbox;

static void fills(void *argument)
{
    struct buffer *buffer;
    int number;

    (void)argument;
    for (number = 1; number <= NUMBERS; number++) {
        buffer = AllocateFpl(pool);
        buffer->number = number;
        SendMbx(mailbox, buffer);
    }
}

static void prints(void *argument)
{
    struct buffer *buffer;
    void *message;
    int count;

    (void)argument;
    for (count = 1; count <= NUMBERS; count++) {
        ReceiveMbx(&message, mailbox);
        buffer = message;
        FreeFpl(pool, buffer);
        printf("message %d at %p: number %d\n", count, message, buffer->number);
    }
}

int _start(void)
{
    iop_fpl_param_t buffers = { .attr = FA_THFIFO, .block_size = sizeof(struct buffer), .blocks = BUFFERS };
    iop_mbx_t messages = { .attr = MBA_THFIFO | MBA_MSFIFO };
    iop_thread_t filler = { .attr = TH_C, .thread = fills, .stacksize = 0x400, .priority = 20 };
    iop_thread_t printer = { .attr = TH_C, .thread = prints, .stacksize = 0x400, .priority = 21 };

    pool = CreateFpl(&buffers);
    mailbox = CreateMbx(&messages);
    StartThread(CreateThread(&filler), 0);
    StartThread(CreateThread(&printer), 0);
    return MODULE_RESIDENT_END;
}
