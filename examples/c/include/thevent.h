/*
 * The library thevent: event flags. Names and numbers are those of ps2sdk's header of the same name; what a service
 * does here is in docs/PROFILE.md. Before each stands its number, and from where it may be called: thread, handler or
 * both. From elsewhere it answers KE_ILLEGAL_CONTEXT. Where two stand together the second is the form for handlers. An
 * id that no event flag has gives KE_UNKNOWN_EVFID.
 */
#ifndef THEVENT_H
#define THEVENT_H

#include <kerr.h>
#include <tamtypes.h>

/* An event flag's attribute: how many threads may wait for it at a time. Others give KE_ILLEGAL_ATTR. */
#define EA_SINGLE 0
#define EA_MULTI 2

/* A condition's mode. */
#define WEF_AND 0      /* all bits are asked for */
#define WEF_OR 1       /* one of them is */
#define WEF_CLEAR 0x10 /* with either: the pattern becomes 0 when the condition holds */

/* What CreateEventFlag takes. */
typedef struct _iop_event {
    u32 attr;
    u32 option; /* a word of one's own */
    u32 bits;   /* the first pattern */
} iop_event_t;

/* What ReferEventFlagStatus tells. ps2sdk's structure has the last two words too; here they are not written. */
typedef struct _iop_event_info {
    u32 attr;
    u32 option;
    u32 initBits;
    u32 currBits;
    int numThreads; /* how many wait */
    int reserved1;  /* not written here */
    int reserved2;  /* not written here */
} iop_event_info_t;

/* 4, thread: makes an event flag and answers its id, KE_ILLEGAL_ATTR or KE_NO_MEMORY. */
int CreateEventFlag(iop_event_t *event);

/* 5, thread: deletes an event flag; the waits for it answer KE_WAIT_DELETE. Answers KE_OK. */
int DeleteEventFlag(int ef);

/* 6, thread, and 7, handler: set bits of the pattern, and wake the threads whose condition holds. Answer KE_OK. */
int SetEventFlag(int ef, u32 bits);
int iSetEventFlag(int ef, u32 bits);

/* 8, thread, and 9, handler: clear all bits of the pattern but these. Answer KE_OK. */
int ClearEventFlag(int ef, u32 bits);
int iClearEventFlag(int ef, u32 bits);

/*
 * 10, thread: waits until the condition holds; the pattern is then written at `resbits`, if that is not 0. Answers
 * KE_OK, KE_CAN_NOT_WAIT, KE_EVF_ILPAT, KE_EVF_MULTI, or what ended the wait.
 */
int WaitEventFlag(int ef, u32 bits, int mode, u32 *resbits);

/* 11, thread: does the same without a wait. Answers KE_OK, KE_EVF_ILPAT, KE_EVF_MULTI or KE_EVF_COND. */
int PollEventFlag(int ef, u32 bits, int mode, u32 *resbits);

/* 13, thread, and 14, handler: tell of an event flag. Answer KE_OK. */
int ReferEventFlagStatus(int ef, iop_event_info_t *info);
int iReferEventFlagStatus(int ef, iop_event_info_t *info);

#endif
