/*
 * The library thfpool: fixed pools, of blocks that have all the same size. Names are those of ps2sdk's header of the
 * same name, numbers and words this kernel's own; what a service does here is in docs/PROFILE.md. Before each stands
 * its number, and from where it may be called: thread, handler or both. From elsewhere it answers KE_ILLEGAL_CONTEXT.
 * Where two stand together the second is the form for handlers. An id that no fixed pool has gives KE_UNKNOWN_FPLID.
 *
 * What answers an address answers an error number as one: `(int)block < 0` tells.
 */
#ifndef THFPOOL_H
#define THFPOOL_H

#include <kerr.h>
#include <tamtypes.h>

/* A fixed pool's attribute: which of the threads that wait is the next. Others give KE_ILLEGAL_ATTR. */
#define FA_THFIFO 0 /* by arrival */
#define FA_THPRI 1  /* by priority */

/* What CreateFpl takes. */
typedef struct _iop_fpl_param {
    u32 attr;
    u32 option;     /* a word of one's own */
    int block_size; /* 1 to 65,536, rounded up to 4 */
    int blocks;     /* how many: 1 to 1,024 */
} iop_fpl_param_t;

/* What ReferFplStatus tells. The words are this kernel's, and need not be those of ps2sdk's structure. */
typedef struct _iop_fpl_info {
    u32 attr;
    u32 option;
    int blockSize;      /* rounded up to 4 */
    int numBlocks;
    int freeBlocks;     /* how many are free */
    int numWaitThreads; /* how many wait */
} iop_fpl_info_t;

/* 4, thread: makes a pool, and answers its id, KE_ILLEGAL_ATTR, KE_ILLEGAL_MEMSIZE or KE_NO_MEMORY. */
int CreateFpl(iop_fpl_param_t *param);

/* 5, thread: deletes a pool and frees its memory; the waits for it answer KE_WAIT_DELETE. Answers KE_OK. */
int DeleteFpl(int fplId);

/*
 * 6, thread: takes the free block of the least address, or waits for one. Answers the block's address,
 * KE_CAN_NOT_WAIT, or what ended the wait.
 */
void *AllocateFpl(int fplId);

/* 7, both: does the same without a wait. Answers the address, or KE_NO_MEMORY where no block is free. */
void *pAllocateFpl(int fplId);

/*
 * 8, thread, and 9, handler: give a block to the next thread that waits, or else back to the pool. Answer KE_OK, or
 * KE_ILLEGAL_MEMBLOCK where no block that was taken starts there.
 */
int FreeFpl(int fplId, void *block);
int iFreeFpl(int fplId, void *block);

/* 11, thread, and 12, handler: tell of a pool. Answer KE_OK. */
int ReferFplStatus(int fplId, iop_fpl_info_t *info);
int iReferFplStatus(int fplId, iop_fpl_info_t *info);

#endif
