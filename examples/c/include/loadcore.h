/*
 * The library loadcore. Names and numbers are those of ps2sdk's header of the same name; what a service does here is in
 * docs/PROFILE.md. Before each stands its number, and from where it may be called: thread, handler or both. From
 * elsewhere it answers KE_ILLEGAL_CONTEXT.
 */
#ifndef LOADCORE_H
#define LOADCORE_H

#include <irx.h>
#include <kerr.h>

/* What `_start` returns. The loader looks at the lowest two bits. */
#define MODULE_RESIDENT_END 0    /* the module stays */
#define MODULE_NO_RESIDENT_END 1 /* it is removed */
#define MODULE_REMOVABLE_END 2   /* it stays, and may be removed */

/* 4, both: nothing is to be done here. */
void FlushIcache(void);

/* 5, both: nothing is to be done here. */
void FlushDcache(void);

/* 6, thread: registers a library. Answers KE_OK, KE_ILLEGAL_LIBRARY, KE_LIBRARY_FOUND or KE_NO_MEMORY. */
int RegisterLibraryEntries(struct irx_export_table *exports);

/* 7, thread: takes a library out again. Answers KE_OK, KE_LIBRARY_NOTFOUND, or KE_LIBRARY_INUSE. */
int ReleaseLibraryEntries(struct irx_export_table *exports);

#endif
