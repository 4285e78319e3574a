/*
 * The export table of a library of one's own, for a file of the assembler:
 *
 *     #include <exports.h>
 *
 *         export_table "tally", 1, 1
 *         export tally_add
 *         export tally_total
 *         end_export_table
 *
 * The numbers 0 to 3 of a library are reserved: they are given a function that answers 0, and the first `export` has
 * number 4. In C the table is `extern struct irx_export_table _exp_tally`, for RegisterLibraryEntries.
 */

    .set noreorder

/* The head of the table: the library's name of at most 8 bytes, which is a name of C too, and its version. */
.macro export_table name, major, minor
    .text
    .balign 4
    .globl _exp_\name
    .type _exp_\name, @object
_exp_\name:
    .word 0x41c00000, 0
    .half (\major << 8) | \minor, 0
1:  .ascii "\name"
    .org 1b + 8
    .rept 4
    .word 2f
    .endr
.endm

/* The next function. */
.macro export name
    .word \name
.endm

.macro end_export_table
    .word 0
2:  jr $ra
    addu $v0, $0, $0
.endm
