/*
 * What a service answers where it refuses. Names and numbers are those of ps2sdk's header of the same name; which one a
 * service answers here is in docs/PROFILE.md. A number that a library does not list answers KE_ERROR.
 */
#ifndef KERR_H
#define KERR_H

#define KE_OK 0
#define KE_ERROR (-1)

/* contexts, interrupts */
#define KE_ILLEGAL_CONTEXT (-100)    /* called from a handler instead of a thread, or the other way round */
#define KE_ILLEGAL_INTRCODE (-101)   /* there is no such interrupt line */
#define KE_CPUDI (-102)              /* interrupts are off */
#define KE_INTRDISABLE (-103)        /* the interrupt line is disabled */
#define KE_FOUND_HANDLER (-104)      /* there is a handler already */
#define KE_NOTFOUND_HANDLER (-105)   /* there is no handler */

/* modules, libraries */
#define KE_LINKERR (-200)            /* a library that the module imports from is not there */
#define KE_ILLEGAL_OBJECT (-201)     /* the file is no module */
#define KE_UNKNOWN_MODULE (-202)
#define KE_NOFILE (-203)
#define KE_FILEERR (-204)
#define KE_MEMINUSE (-205)
#define KE_ALREADY_STARTED (-206)
#define KE_NOT_STARTED (-207)
#define KE_ALREADY_STOPPED (-208)
#define KE_CAN_NOT_STOP (-209)
#define KE_NOT_STOPPED (-210)
#define KE_NOT_REMOVABLE (-211)
#define KE_LIBRARY_FOUND (-212)      /* a library of this name and major version is there already */
#define KE_LIBRARY_NOTFOUND (-213)   /* no library has this table */
#define KE_ILLEGAL_LIBRARY (-214)    /* this is no export table */
#define KE_LIBRARY_INUSE (-215)      /* a module is linked to the library */

/* threads and their objects */
#define KE_NO_MEMORY (-400)          /* no memory, or no id, or no place in a table */
#define KE_ILLEGAL_ATTR (-401)       /* attributes that there are not */
#define KE_ILLEGAL_ENTRY (-402)      /* a thread's function is no multiple of 4 */
#define KE_ILLEGAL_PRIORITY (-403)   /* a priority that is not 1 to 126 */
#define KE_ILLEGAL_STACK_SIZE (-404) /* a stack below 256 bytes */
#define KE_ILLEGAL_MODE (-405)
#define KE_ILLEGAL_THID (-406)       /* an id that the service does not take, as the caller's own */
#define KE_UNKNOWN_THID (-407)       /* no thread has the id */
#define KE_UNKNOWN_SEMID (-408)      /* no semaphore has the id */
#define KE_UNKNOWN_EVFID (-409)      /* no event flag has the id */
#define KE_UNKNOWN_MBXID (-410)      /* no mailbox has the id */
#define KE_UNKNOWN_VPLID (-411)      /* no variable pool has the id */
#define KE_UNKNOWN_FPLID (-412)      /* no fixed pool has the id */
#define KE_DORMANT (-413)            /* the thread is dormant: it was not started, or it has ended */
#define KE_NOT_DORMANT (-414)        /* the thread is not dormant */
#define KE_NOT_SUSPEND (-415)        /* the thread is not suspended */
#define KE_NOT_WAIT (-416)           /* the thread does not wait */
#define KE_CAN_NOT_WAIT (-417)       /* no wait while interrupts are off or dispatch is disabled */
#define KE_RELEASE_WAIT (-418)       /* the wait was ended by ReleaseWaitThread */
#define KE_SEMA_ZERO (-419)          /* the semaphore's count is 0 */
#define KE_SEMA_OVF (-420)           /* the semaphore's count is the greatest */
#define KE_EVF_COND (-421)           /* the event flag's condition does not hold */
#define KE_EVF_MULTI (-422)          /* another thread waits for the event flag, which allows one */
#define KE_EVF_ILPAT (-423)          /* no bits are asked for */
#define KE_MBX_NOMSG (-424)          /* the mailbox has no message */
#define KE_WAIT_DELETE (-425)        /* what was waited for is deleted */
#define KE_ILLEGAL_MEMBLOCK (-426)   /* no block of the pool that was taken starts there */
#define KE_ILLEGAL_MEMSIZE (-427)    /* a size, or a number of blocks, that the service does not take */

#endif
