/* The library tally of the module tally: it adds numbers up. */
#ifndef TALLY_H
#define TALLY_H

/* 4: adds a number. */
void tally_add(int number);

/* 5: answers the sum of all numbers so far. */
int tally_total(void);

#endif
