/*
 * A stub that is overwritten. `counts` has a place for each small letter, and the text has a capital: its place is
 * before the first, where the import tables stand. To count it changes the stub of printf, which then prints nothing.
 */
#include <loadcore.h>
#include <stdio.h>

static int counts[26] = { 0 };

static void count(const char *text)
{
    for (; *text; text++)
        counts[*text - 'a']++;
}

int _start(void)
{
    printf("counting\n");
    count("iRx");
    printf("counted\n");
    return MODULE_RESIDENT_END;
}
