/* A module with a library of its own. tally_exports.S has the table of its functions. */
#include <irx.h>
#include <loadcore.h>
#include <stdio.h>

#include "tally.h"

extern struct irx_export_table _exp_tally;

static int total;

void tally_add(int number)
{
    total += number;
}

int tally_total(void)
{
    return total;
}

int _start(void)
{
    int code = RegisterLibraryEntries(&_exp_tally);

    if (code != KE_OK) {
        printf("tally: error %d\n", code);
        return MODULE_NO_RESIDENT_END;
    }
    return MODULE_RESIDENT_END; /* its functions are needed from now on */
}
