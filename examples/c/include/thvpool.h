/*
 * The library thvpool: variable pools, of which memory of any size is taken. Names are those of ps2sdk's header of the
 * same name, numbers and words this kernel's own; what a service does here is in docs/PROFILE.md. Before each stands
 * its number, and from where it may be called: thread, handler or both. From elsewhere it answers KE_ILLEGAL_CONTEXT.
 * Where two stand together the second is the form for handlers. An id that no variable pool has gives KE_UNKNOWN_VPLID.
 *
 * What answers an address answers an error number as one: `(int)block < 0` tells.
 */
#ifndef THVPOOL_H
#define THVPOOL_H

#include <kerr.h>
#include <tamtypes.h>

/* A variable pool's attribute: in which order the threads that wait are looked at. Others give KE_ILLEGAL_ATTR. */
#define VA_THFIFO 0 /* by arrival */
#define VA_THPRI 1  /* by priority */

/* What CreateVpl takes. */
typedef struct _iop_vpl_param {
    u32 attr;
    u32 option; /* a word of one's own */
    int size;   /* 16 to 65,536, rounded up to 16 */
} iop_vpl_param_t;

/* What ReferVplStatus tells. The words are this kernel's, and need not be those of ps2sdk's structure. */
typedef struct _iop_vpl_info {
    u32 attr;
    u32 option;
    int size;           /* rounded up to 16 */
    int freeSize;       /* how many bytes are free */
    int maxFreeSize;    /* the size of the greatest free range */
    int numWaitThreads; /* how many wait */
} iop_vpl_info_t;

/* 4, thread: makes a pool, and answers its id, KE_ILLEGAL_ATTR, KE_ILLEGAL_MEMSIZE or KE_NO_MEMORY. */
int CreateVpl(iop_vpl_param_t *param);

/* 5, thread: deletes a pool and frees its memory; the waits for it answer KE_WAIT_DELETE. Answers KE_OK. */
int DeleteVpl(int vplId);

/*
 * 6, thread: takes a block, its size rounded up to 16, at the least address where it fits, or waits until it does.
 * Answers the block's address, KE_CAN_NOT_WAIT, KE_ILLEGAL_MEMSIZE for a size of 0 or over the pool's, or what ended
 * the wait.
 */
void *AllocateVpl(int vplId, int size);

/* 7, both: does the same without a wait. Answers the address, KE_ILLEGAL_MEMSIZE, or KE_NO_MEMORY. */
void *pAllocateVpl(int vplId, int size);

/*
 * 8, thread, and 9, handler: give the block that starts there back, and wake each thread whose size then fits. Answer
 * KE_OK, or KE_ILLEGAL_MEMBLOCK where no block of the pool starts there.
 */
int FreeVpl(int vplId, void *block);
int iFreeVpl(int vplId, void *block);

/* 11, thread, and 12, handler: tell of a pool. Answer KE_OK. */
int ReferVplStatus(int vplId, iop_vpl_info_t *info);
int iReferVplStatus(int vplId, iop_vpl_info_t *info);

#endif
