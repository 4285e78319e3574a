/*
 * Reads settings from a text. A line has a name, `=` and a number: decimal, octal behind 0, or hexadecimal behind 0x.
 * What follows the number is not looked at. The console shows what became of each line.
 */
#include <loadcore.h>
#include <stdio.h>
#include <stdlib.h>
#include <string.h>

#define LONGEST 31            /* how many bytes of a line are read */
#define ANSWER (LONGEST + 64) /* room for what is told of a line: its name, and at most 63 bytes more */

struct setting {
    const char *name;
    int value;
};

static struct setting settings[] = {
    { "priority", 32 },
    { "stack", 2048 },
    { "offset", 0 },
};

#define SETTINGS (sizeof settings / sizeof settings[0])

static const char text[] =
    "priority = 20\n"
    "  stack=0x1000 bytes\n"
    "offset = -010\n"
    "color = 3\n"
    "stack\n"
    "priority = high";

/* Removes the spaces that a string begins with. */
static void remove_spaces(char *string)
{
    const char *rest = string;

    while (*rest == ' ')
        rest++;
    memmove(string, rest, strlen(rest) + 1); /* its zero byte moves too */
}

static struct setting *find_setting(const char *name)
{
    struct setting *setting;

    for (setting = settings; setting < settings + SETTINGS; setting++)
        if (strcmp(setting->name, name) == 0)
            return setting;
    return 0;
}

/* Sets what a line says, and writes to `answer` what is to be told of it. The line is changed. */
static void read_line(char *line, char *answer)
{
    char *equals, *space, *number, *end;
    struct setting *setting;
    int value;

    remove_spaces(line);
    equals = strchr(line, '=');
    if (!equals) {
        sprintf(answer, "%s: there is no =", line);
        return;
    }
    *equals = '\0';
    space = strchr(line, ' ');
    if (space)
        *space = '\0'; /* the line is its name now */
    number = equals + 1;
    value = (int)strtol(number, &end, 0);
    setting = find_setting(line);
    if (!setting)
        sprintf(answer, "%s: there is no such setting", line);
    else if (end == number)
        sprintf(answer, "%s: it stays %d, since there is no number", setting->name, setting->value);
    else {
        sprintf(answer, "%s: it was %d and is %d", setting->name, setting->value, value);
        setting->value = value;
    }
}

/* Copies the first bytes of a text, at most LONGEST, as a string. */
static void copy_line(char *line, const char *from, size_t count)
{
    if (count > LONGEST)
        count = LONGEST;
    strncpy(line, from, count);
    line[count] = '\0'; /* strncpy ends no string that it cuts */
}

int _start(void)
{
    char line[LONGEST + 1], answer[ANSWER];
    const char *from = text, *end;

    while (*from) {
        end = strchr(from, '\n');
        if (!end)
            end = strchr(from, '\0'); /* the last line ends with the text */
        copy_line(line, from, (size_t)(end - from));
        read_line(line, answer);
        printf("%s\n", answer);
        from = *end ? end + 1 : end;
    }
    return MODULE_NO_RESIDENT_END;
}
