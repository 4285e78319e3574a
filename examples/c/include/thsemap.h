/*
 * The library thsemap: semaphores. Names and numbers are those of ps2sdk's header of the same name; what a service does
 * here is in docs/PROFILE.md. Before each stands its number, and from where it may be called: thread, handler or both.
 * From elsewhere it answers KE_ILLEGAL_CONTEXT. Where two stand together the second is the form for handlers. An id
 * that no semaphore has gives KE_UNKNOWN_SEMID.
 */
#ifndef THSEMAP_H
#define THSEMAP_H

#include <kerr.h>
#include <tamtypes.h>

/* A semaphore's attribute: which of the threads that wait is the next. Others give KE_ILLEGAL_ATTR. */
#define SA_THFIFO 0 /* by arrival */
#define SA_THPRI 1  /* by priority */

/* What CreateSema takes. */
typedef struct _iop_sema {
    u32 attr;
    u32 option;  /* a word of one's own */
    int initial; /* the first count */
    int max;     /* the greatest count */
} iop_sema_t;

/* What ReferSemaStatus tells. ps2sdk's structure has the last two words too; here they are not written. */
typedef struct _iop_sema_info {
    u32 attr;
    u32 option;
    int initial;
    int max;
    int current;
    int numWaitThreads;
    int reserved[2]; /* not written here */
} iop_sema_info_t;

/* 4, thread: makes a semaphore and answers its id, KE_ILLEGAL_ATTR, KE_SEMA_OVF or KE_NO_MEMORY. */
int CreateSema(iop_sema_t *sema);

/* 5, thread: deletes a semaphore; the waits for it answer KE_WAIT_DELETE. Answers KE_OK. */
int DeleteSema(int semid);

/* 6, thread, and 7, handler: wake the next thread that waits, or else count one more. Answer KE_OK or KE_SEMA_OVF. */
int SignalSema(int semid);
int iSignalSema(int semid);

/* 8, thread: counts one less, or waits where the count is 0. Answers KE_OK, KE_CAN_NOT_WAIT, or what ended the wait. */
int WaitSema(int semid);

/* 9, thread: counts one less. Answers KE_OK, or KE_SEMA_ZERO where the count is 0. */
int PollSema(int semid);

/* 11, thread, and 12, handler: tell of a semaphore. Answer KE_OK. */
int ReferSemaStatus(int semid, iop_sema_info_t *info);
int iReferSemaStatus(int semid, iop_sema_info_t *info);

#endif
