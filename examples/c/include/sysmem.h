/*
 * The library sysmem. Names and numbers are those of ps2sdk's header of the same name; what a service does here is in
 * docs/PROFILE.md. Before each stands its number, and from where it may be called: thread, handler or both.
 */
#ifndef SYSMEM_H
#define SYSMEM_H

#include <tamtypes.h>

/* Where AllocSysMemory takes a block. */
#define ALLOC_FIRST 0   /* at the least address where it is free */
#define ALLOC_LAST 1    /* at the greatest */
#define ALLOC_ADDRESS 2 /* at the given address, a multiple of 256 */

/*
 * 4, both: takes a block, its size rounded up to 256. `ptr` is looked at in mode ALLOC_ADDRESS alone. Answers the
 * block's address, or 0: where there is no room, for a size of 0, for another mode, and for a `ptr` that is no multiple
 * of 256.
 */
void *AllocSysMemory(int mode, int size, void *ptr);

/* 5, both: frees the block that starts there. Answers 0, or -1 where none does, and for the kernel's block. */
int FreeSysMemory(void *ptr);

/* 6, both: answers how many bytes of memory there are. */
u32 QueryMemSize(void);

/* 7, both: answers the size of the greatest free range. */
u32 QueryMaxFreeMemSize(void);

/* 8, both: answers how many bytes are free. */
u32 QueryTotalFreeMemSize(void);

/* 9, both: answers the start of the block that holds the address, or 0xffffffff where none does. */
void *QueryBlockTopAddress(void *address);

/* 10, both: answers the size of the block that holds the address, or -1 where none does. */
int QueryBlockSize(void *address);

/* 14, both: prints as printf of stdio.h does. Answers the number of bytes. */
int Kprintf(const char *format, ...) __attribute__((format(printf, 1, 2)));

#endif
