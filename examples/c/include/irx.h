/*
 * The head of an export table, as loadcore takes it. Names are those of ps2sdk's header of the same name; the layout is
 * in docs/FORMATS.md. exports.h makes such a table: the one of a library NAME is `extern struct irx_export_table
 * _exp_NAME`.
 */
#ifndef IRX_H
#define IRX_H

#include <tamtypes.h>

struct irx_export_table {
    u32 magic;      /* 0x41c00000 */
    u32 next;
    u16 version;    /* major * 256 + minor */
    u16 mode;
    char name[8];
    void *fptrs[];  /* the functions, up to a word 0 */
};

#endif
