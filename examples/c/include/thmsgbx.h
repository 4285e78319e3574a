/*
 * The library thmsgbx: mailboxes. Names and numbers are those of ps2sdk's header of the same name; what a service does
 * here is in docs/PROFILE.md. Before each stands its number, and from where it may be called: thread, handler or both.
 * From elsewhere it answers KE_ILLEGAL_CONTEXT. Where two stand together the second is the form for handlers. An id
 * that no mailbox has gives KE_UNKNOWN_MBXID.
 */
#ifndef THMSGBX_H
#define THMSGBX_H

#include <kerr.h>
#include <tamtypes.h>

/* A mailbox's attributes: which thread and which message is the next. Others give KE_ILLEGAL_ATTR. */
#define MBA_THFIFO 0 /* threads by arrival */
#define MBA_THPRI 1  /* threads by priority */
#define MBA_MSFIFO 0 /* messages by arrival */
#define MBA_MSPRI 4  /* messages by priority, the least number first */

/*
 * The head of a message. A message is not copied: the receiver gets its address. On the console the first word is the
 * kernel's; here only the priority is looked at, and that only where messages are taken by priority.
 */
typedef struct _iop_message {
    struct _iop_message *next; /* not used here */
    u8 priority;
    u8 unused[3];
} iop_message_t;

/* What CreateMbx takes. */
typedef struct _iop_mbx {
    u32 attr;
    u32 option; /* a word of one's own */
} iop_mbx_t;

/* What ReferMbxStatus tells. ps2sdk's structure has the last two words too; here they are not written. */
typedef struct _iop_mbx_status {
    u32 attr;
    u32 option;
    int numWaitThreads;
    int numMessage;
    iop_message_t *topPacket; /* the next message, or 0 */
    u32 reserved[2];          /* not written here */
} iop_mbx_status_t;

/* 4, thread: makes a mailbox and answers its id, KE_ILLEGAL_ATTR or KE_NO_MEMORY. */
int CreateMbx(iop_mbx_t *mbox);

/* 5, thread: deletes a mailbox; the waits for it answer KE_WAIT_DELETE. Answers KE_OK. */
int DeleteMbx(int mbxid);

/*
 * 6, thread, and 7, handler: give a message to the next thread that waits, or else queue it. Answer KE_OK or
 * KE_NO_MEMORY.
 */
int SendMbx(int mbxid, void *msg);
int iSendMbx(int mbxid, void *msg);

/*
 * 8, thread: writes the address of the next message at `msgaddr`, or waits for one. Answers KE_OK, KE_CAN_NOT_WAIT, or
 * what ended the wait.
 */
int ReceiveMbx(void **msgaddr, int mbxid);

/* 9, thread: does the same without a wait. Answers KE_OK or KE_MBX_NOMSG. */
int PollMbx(void **msgaddr, int mbxid);

/* 11, thread, and 12, handler: tell of a mailbox. Answer KE_OK. */
int ReferMbxStatus(int mbxid, iop_mbx_status_t *info);
int iReferMbxStatus(int mbxid, iop_mbx_status_t *info);

#endif
