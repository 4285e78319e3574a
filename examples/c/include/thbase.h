/*
 * The library thbase. Names and numbers are those of ps2sdk's header of the same name; what a service does here is in
 * docs/PROFILE.md. Before each stands its number, and from where it may be called: thread, handler or both. From
 * elsewhere it answers KE_ILLEGAL_CONTEXT. Where two stand together the second is the form for handlers.
 *
 * `thid` is a thread's id. An id that no thread has gives KE_UNKNOWN_THID. One that a service does not take gives
 * KE_ILLEGAL_THID: 0, but where it means the thread that calls, and in some services the caller's own and the loader's.
 */
#ifndef THBASE_H
#define THBASE_H

#include <kerr.h>
#include <tamtypes.h>

/* A thread's attributes: its language. Others give KE_ILLEGAL_ATTR. */
#define TH_ASM 0x01000000
#define TH_C 0x02000000

/* A thread's state. */
#define THS_RUN 0x01
#define THS_READY 0x02
#define THS_WAIT 0x04
#define THS_SUSPEND 0x08
#define THS_WAITSUSPEND 0x0c
#define THS_DORMANT 0x10

/* What a thread waits for. */
#define TSW_SLEEP 1     /* WakeupThread */
#define TSW_DELAY 2     /* a time */
#define TSW_SEMA 3      /* a semaphore */
#define TSW_EVENTFLAG 4 /* an event flag */
#define TSW_MBX 5       /* a mailbox */
#define TSW_VPL 6       /* memory of a variable pool */
#define TSW_FPL 7       /* a block of a fixed pool */

/* What CreateThread takes. */
typedef struct _iop_thread {
    u32 attr;               /* TH_C */
    u32 option;             /* a word of one's own */
    void (*thread)(void *); /* the function that it runs */
    u32 stacksize;          /* at least 256 */
    u32 priority;           /* 1, the best, to 126 */
} iop_thread_t;

/* What ReferThreadStatus tells. ps2sdk's structure has the last five words too; here they are not written. */
typedef struct _iop_thread_info {
    u32 attr;
    u32 option;
    int status;          /* THS_... */
    void *entry;
    void *stack;
    int stackSize;       /* rounded up to 256 */
    void *gpReg;
    int initPriority;
    int currentPriority;
    int waitType;        /* TSW_..., or 0 */
    int waitId;          /* the id of the object, or 0 */
    int wakeupCount;
    u32 *regContext;     /* not written here */
    u32 reserved[4];     /* not written here */
} iop_thread_info_t;

/* A time in ticks of the clock, of which 36,864,000 are a second. */
typedef struct _iop_sys_clock {
    u32 lo, hi;
} iop_sys_clock_t;

/*
 * 4, thread: makes a thread, dormant as yet, and answers its id, KE_ILLEGAL_ATTR, KE_ILLEGAL_ENTRY,
 * KE_ILLEGAL_PRIORITY, KE_ILLEGAL_STACK_SIZE or KE_NO_MEMORY.
 */
int CreateThread(iop_thread_t *thread);

/* 5, thread: deletes a dormant thread and frees its stack. Answers KE_OK or KE_NOT_DORMANT. */
int DeleteThread(int thid);

/* 6, thread: starts a dormant thread with an argument. Answers KE_OK or KE_NOT_DORMANT. */
int StartThread(int thid, void *arg);

/* 8, thread: ends the thread that calls, which is then dormant, as a return from its function does. */
int ExitThread(void);

/* 9, thread: ends the thread that calls, and deletes it. */
int ExitDeleteThread(void);

/* 10, thread, and 11, handler: end another thread. Answer KE_OK or KE_DORMANT. */
int TerminateThread(int thid);
int iTerminateThread(int thid);

/* 12, thread: no other thread runs from now on. Answers KE_OK, or KE_CPUDI where interrupts are off. */
int DisableDispatchThread(void);

/* 13, thread: others run again. Answers KE_OK, or KE_CPUDI where interrupts are off. */
int EnableDispatchThread(void);

/*
 * 14, thread, and 15, handler: give a thread another priority; 0 means in 14 the thread that calls. Answer KE_OK,
 * KE_ILLEGAL_PRIORITY or KE_DORMANT.
 */
int ChangeThreadPriority(int thid, int priority);
int iChangeThreadPriority(int thid, int priority);

/*
 * 16, thread, and 17, handler: let the first thread that is ready at a priority become the last one of them; 0 means in
 * 16 the priority of the thread that calls. Answer KE_OK or KE_ILLEGAL_PRIORITY.
 */
int RotateThreadReadyQueue(int priority);
int iRotateThreadReadyQueue(int priority);

/* 18, thread, and 19, handler: end a thread's wait, which answers KE_RELEASE_WAIT. Answer KE_OK or KE_NOT_WAIT. */
int ReleaseWaitThread(int thid);
int iReleaseWaitThread(int thid);

/* 20, thread: answers the id of the thread that calls. */
int GetThreadId(void);

/* 22, thread, and 23, handler: tell of a thread; 0 means in 22 the thread that calls. Answer KE_OK. */
int ReferThreadStatus(int thid, iop_thread_info_t *info);
int iReferThreadStatus(int thid, iop_thread_info_t *info);

/* 24, thread: waits to be woken. Answers KE_OK, KE_RELEASE_WAIT or KE_CAN_NOT_WAIT. */
int SleepThread(void);

/*
 * 25, thread, and 26, handler: wake a thread that sleeps; any other has one wakeup more, which its next SleepThread
 * takes instead of a wait. Answer KE_OK or KE_DORMANT.
 */
int WakeupThread(int thid);
int iWakeupThread(int thid);

/*
 * 27, thread, and 28, handler: take a thread's wakeups away, and answer how many it had, or KE_DORMANT; 0 means in 27
 * the thread that calls.
 */
int CancelWakeupThread(int thid);
int iCancelWakeupThread(int thid);

/*
 * 29, thread, and 30, handler: stop a thread until it is resumed. Answer KE_OK, KE_DORMANT or, only 30, KE_CAN_NOT_WAIT
 * for the thread that was interrupted, where dispatch is disabled.
 */
int SuspendThread(int thid);
int iSuspendThread(int thid);

/* 31, thread, and 32, handler: let a suspended thread go on. Answer KE_OK or KE_NOT_SUSPEND. */
int ResumeThread(int thid);
int iResumeThread(int thid);

/* 33, thread: waits so many microseconds. Answers KE_OK, KE_RELEASE_WAIT or KE_CAN_NOT_WAIT. */
int DelayThread(int usec);

/* 34, both: writes the present time. Answers KE_OK. */
int GetSystemTime(iop_sys_clock_t *sys_clock);

/*
 * 35, thread, and 36, handler: call a function, as a handler, so many ticks from now. It returns after how many ticks
 * more it is called again, or 0 to end the alarm. Answer KE_OK, KE_NO_MEMORY, or KE_FOUND_HANDLER where an alarm of the
 * same function and argument stands.
 */
int SetAlarm(iop_sys_clock_t *sys_clock, unsigned int (*alarm_cb)(void *), void *arg);
int iSetAlarm(iop_sys_clock_t *sys_clock, unsigned int (*alarm_cb)(void *), void *arg);

/* 37, thread, and 38, handler: cancel the alarm of a function and argument. Answer KE_OK or KE_NOTFOUND_HANDLER. */
int CancelAlarm(unsigned int (*alarm_cb)(void *), void *arg);
int iCancelAlarm(unsigned int (*alarm_cb)(void *), void *arg);

/* 39, both: writes how many ticks so many microseconds are. */
void USec2SysClock(u32 usec, iop_sys_clock_t *sys_clock);

/* 40, both: writes how many whole seconds a time is, and how many microseconds more. */
void SysClock2USec(iop_sys_clock_t *sys_clock, u32 *sec, u32 *usec);

#endif
