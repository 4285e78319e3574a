/*
 * The library stdio. Names and numbers are those of ps2sdk's header of the same name; what a service does here is in
 * docs/PROFILE.md. Before each stands its number, and from where it may be called: thread, handler or both.
 */
#ifndef STDIO_H
#define STDIO_H

#include <sysclib.h> /* sprintf, which C has in this header */

/*
 * 4, both: prints as printf of C does, by %d %i %u %o %x %X %p %c %s %% with flags - and 0, width and precision, and at
 * most 4,096 bytes. Answers the number of bytes.
 *
 * Unlike C, %p prints 8 digits without 0x, %.0d prints 0 as 0, and h and l change nothing: %hhd prints 300 as 300, and
 * there are no 64-bit numbers. The compiler's check lets more pass than there is: a conversion with a flag +, # or
 * space, with a *, or of another letter, as %f, is printed as it stands and takes no argument.
 */
int printf(const char *format, ...) __attribute__((format(printf, 1, 2)));

#endif
