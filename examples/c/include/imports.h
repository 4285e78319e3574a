/*
 * The import table of a library, for a file of the assembler. Each function has a stub of two instructions, which the
 * loader patches:
 *
 *     #include <imports.h>
 *
 *         import_table "tally", 1, 1
 *         import tally_add, 4
 *         import tally_total, 5
 *         end_import_table
 *
 * A file has one table. In the archive libiop.a it becomes a part of the modules that call a function of it, and of no
 * others.
 */

    .set noreorder

/* The head of a table: the library's name of at most 8 bytes, and the version that is wanted. */
.macro import_table name, major, minor
    .text
    .balign 4
    .word 0x41e00000, 0
    .half (\major << 8) | \minor, 0
1:  .ascii "\name"
    .org 1b + 8
.endm

/* The stub of a function, by its number in the library. */
.macro import name, number
    .globl \name
    .type \name, @function
\name:
    jr $ra
    addiu $0, $0, \number
.endm

.macro end_import_table
    .word 0, 0
.endm
