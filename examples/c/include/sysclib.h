/*
 * The library sysclib: memory, strings and numbers, as the library of C has them. Names are those of ps2sdk's header of
 * the same name, numbers this kernel's own; what a service does here is in docs/PROFILE.md. Before each stands its
 * number, and from where it may be called: thread, handler or both. string.h, stdlib.h and stdio.h have these
 * declarations too.
 *
 * Unlike C, a string ends with RAM where it has no zero byte, and one outside RAM is empty. A range that is read by its
 * length, or written, must be wholly in RAM, or the call is an address fault; an empty one may be anywhere. All is read
 * before anything is written, so ranges and strings may overlap.
 */
#ifndef SYSCLIB_H
#define SYSCLIB_H

#include <stddef.h>

/* 10, both: finds the first of some bytes that equals the low byte of `byte`. Answers its address, or 0. */
void *memchr(const void *from, int byte, size_t count);

/*
 * 11, both: compares bytes, as unsigned numbers. Answers 0 where all are equal; else -1 or 1, where in C any number of
 * that sign may stand: the first byte of `left` that is not equal is less or greater.
 */
int memcmp(const void *left, const void *right, size_t count);

/* 12, both, and 13, both: copy bytes. They do the same, so the ranges of both may overlap. Answer `to`. */
void *memcpy(void *to, const void *from, size_t count);
void *memmove(void *to, const void *from, size_t count);

/* 14, both: writes the low byte of `byte` a number of times. Answers `to`. */
void *memset(void *to, int byte, size_t count);

/* 17, both: writes a number of zero bytes. */
void bzero(void *to, size_t count);

/*
 * 19, both: writes the text that printf of stdio.h would print, at most 4,096 bytes, and a zero byte. Its letters are
 * those of printf, which are not all of C. Answers the number of bytes before the zero byte.
 */
int sprintf(char *to, const char *format, ...) __attribute__((format(printf, 2, 3)));

/* 20, both: copies a string behind the one at `to`, with its zero byte. Answers `to`. */
char *strcat(char *to, const char *from);

/* 21, both: finds the first byte of a string, its zero byte among them, as memchr does. Answers its address, or 0. */
char *strchr(const char *string, int byte);

/* 22, both: compares strings with their zero bytes, as memcmp does. Answers -1, 0 or 1. */
int strcmp(const char *left, const char *right);

/* 23, both: copies a string with its zero byte. Answers `to`. */
char *strcpy(char *to, const char *from);

/* 27, both: answers the number of bytes before a string's zero byte. */
size_t strlen(const char *string);

/* 29, both: does the same as strcmp with at most `most` bytes of each. */
int strncmp(const char *left, const char *right, size_t most);

/* 30, both: copies at most `count` bytes of a string, and writes zero bytes up to `count`. Answers `to`. */
char *strncpy(char *to, const char *from, size_t count);

/* 32, both: finds the last byte of a string, its zero byte among them. Answers its address, or 0. */
char *strrchr(const char *string, int byte);

/*
 * 36, both: reads the number that a string begins with, behind white space: a sign or none, and digits of a base from 2
 * to 36. A base of 0 is 16 where 0x or 0X and a digit of base 16 come, 8 where another 0 comes, and else 10; with base
 * 16 this 0x or 0X is passed over too. Answers the number, or -2,147,483,648 or 2,147,483,647 where it is beyond. Where
 * `end` is not 0 the address behind the last digit is written there: `string`, and the answer is 0, where there is no
 * number or the base is another. Unlike C, there is no errno, and an `end` that is no multiple of 4 is an address
 * fault.
 */
long strtol(const char *string, char **end, int base);

#endif
