/* A module that calls the library of another one, tally, which is loaded before it. */
#include <loadcore.h>
#include <stdio.h>

#include "tally.h"

int _start(void)
{
    int number;

    for (number = 1; number <= 10; number++)
        tally_add(number);
    printf("the sum of 1 to 10 is %d\n", tally_total());
    return MODULE_NO_RESIDENT_END; /* it has done all that it is for */
}
