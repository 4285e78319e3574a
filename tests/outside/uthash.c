/* Items in a hash table by a key of two bytes: some are found, some deleted, and those that are left are sorted. */
#define HASH_NONFATAL_OOM 1 /* without it the header calls exit */
#include <stdio.h>
#include <uthash.h>

#define ITEMS 60

struct place {
    unsigned char row;
    unsigned char column;
};

struct item {
    struct place place;
    int value;
    UT_hash_handle hh;
};

static struct item items[ITEMS];
static struct item *table;

static struct item *find(unsigned char row, unsigned char column)
{
    struct place place = { row, column };
    struct item *found;

    HASH_FIND(hh, table, &place, sizeof place, found);
    return found;
}

static void print_found(unsigned char row, unsigned char column)
{
    struct item *found = find(row, column);

    if (found)
        printf("%d, %d has %d\n", row, column, found->value);
    else
        printf("%d, %d has nothing\n", row, column);
}

static int by_place(struct item *left, struct item *right)
{
    return memcmp(&left->place, &right->place, sizeof left->place);
}

int main(void)
{
    struct item *item, *next;
    int n, at;

    for (n = 0; n < ITEMS; n++) {
        at = n * 37 % ITEMS; /* each number below ITEMS comes once */
        items[n].place.row = at / 8 * 36;
        items[n].place.column = at % 8;
        items[n].value = n;
        HASH_ADD(hh, table, place, sizeof(struct place), &items[n]);
    }
    printf("%u items, hash value of the last %08x\n", HASH_COUNT(table), items[ITEMS - 1].hh.hashv);
    print_found(144, 5);
    print_found(252, 3);
    print_found(252, 4);
    print_found(36, 9);
    HASH_ITER(hh, table, item, next)
        if (item->value % 3 == 1)
            HASH_DEL(table, item);
    print_found(144, 5);
    print_found(36, 3);
    HASH_SORT(table, by_place);
    for (item = table; item; item = item->hh.next)
        printf("%d, %d has %d\n", item->place.row, item->place.column, item->value);
    HASH_CLEAR(hh, table);
    printf("%u items\n", HASH_COUNT(table));
    return 0;
}
