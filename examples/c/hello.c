/* A module that greets everyone in a list, and tells its own name. */
#include <loadcore.h>
#include <sysmem.h>

struct greeting {
    const char *text;
    const struct greeting *next;
};

static const struct greeting last = { "bye", 0 };
static const struct greeting second = { "hello, console", &last };
static const struct greeting first = { "hello, world", &second };

/* What is greeted next. It stands in memory that the file has bytes for. */
static const struct greeting *next = &first;

/* How many bytes were written. It stands in memory that begins as zeros. */
static int written;

static void write(const char *text)
{
    written += Kprintf("%s\n", text);
}

/* The loader calls it with the words of the module, of which the first is its name. */
int _start(int argc, char **argv)
{
    while (next) {
        write(next->text);
        next = next->next;
    }
    if (argc > 0)
        write(argv[0]);
    return written > 0 ? MODULE_RESIDENT_END : MODULE_NO_RESIDENT_END;
}
