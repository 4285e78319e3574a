/* The library vbcount of the module vb. */
#ifndef VBCOUNT_H
#define VBCOUNT_H

/* 4: answers the id of the semaphore that counts vertical blanks. */
int vbcount_semaphore(void);

#endif
