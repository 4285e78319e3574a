/*
 * Two threads, a fixed pool of buffers and a mailbox. One thread takes a buffer of the pool, fills it and sends it to
 * the mailbox; where no buffer is free it waits. The other one receives a buffer, prints what it holds, and gives it
 * back to the pool, which wakes the first. Nothing is copied: what is sent is the buffer's address.
 */
#include <loadcore.h>
#include <stdio.h>
#include <thbase.h>
#include <thfpool.h>
#include <thmsgbx.h>

#define BUFFERS 2
#define NUMBERS 5

/* A buffer. It is sent as a message, so it begins with the head of one. */
struct buffer {
    iop_message_t head;
    int number;
};

static int pool;
static int mailbox;

static void fill_buffers(void *argument)
{
    struct buffer *buffer;
    int number;

    (void)argument;
    for (number = 1; number <= NUMBERS; number++) {
        buffer = AllocateFpl(pool);
        if ((int)buffer < 0) /* an error number, and no address */
            return;
        buffer->number = number;
        printf("filled %d\n", number);
        if (SendMbx(mailbox, buffer) != KE_OK)
            return;
    }
}

static void print_buffers(void *argument)
{
    struct buffer *buffer;
    void *message;
    int count;

    (void)argument;
    for (count = 0; count < NUMBERS; count++) {
        if (ReceiveMbx(&message, mailbox) != KE_OK)
            return;
        buffer = message;
        printf("received %d\n", buffer->number);
        if (FreeFpl(pool, buffer) != KE_OK) /* a thread that waits for it has it now */
            return;
    }
    DeleteMbx(mailbox);
    DeleteFpl(pool);
}

int _start(void)
{
    iop_fpl_param_t buffers = { .attr = FA_THFIFO, .block_size = sizeof(struct buffer), .blocks = BUFFERS };
    iop_mbx_t messages = { .attr = MBA_THFIFO | MBA_MSFIFO };
    iop_thread_t fills = { .attr = TH_C, .thread = fill_buffers, .stacksize = 0x800, .priority = 20 };
    iop_thread_t prints = { .attr = TH_C, .thread = print_buffers, .stacksize = 0x800, .priority = 21 };
    int filler, printer;

    pool = CreateFpl(&buffers);
    mailbox = CreateMbx(&messages);
    filler = CreateThread(&fills);
    printer = CreateThread(&prints);
    if (pool < 0 || mailbox < 0 || filler < 0 || printer < 0) {
        /* What was made is deleted. An error number is no id, and nothing is done for it. */
        DeleteThread(printer);
        DeleteThread(filler);
        DeleteMbx(mailbox);
        DeleteFpl(pool);
        return MODULE_NO_RESIDENT_END;
    }
    /* A new thread can be started. The two begin when this one, of a better priority, has returned. */
    StartThread(filler, 0);
    StartThread(printer, 0);
    return MODULE_RESIDENT_END;
}
