/* An array that grows and shrinks in its midst, and maps by strings and by keys of two words. */
#define STB_DS_IMPLEMENTATION
#include <stb/stb_ds.h>
#include <stdio.h>

struct place {
    int row;
    int column;
};

struct by_place {
    struct place key;
    int value;
};

struct by_name {
    char *key;
    int value;
};

static char *words[] = { "one", "two", "three", "four", "five", "six", "seven", "eight", "nine", "ten", "two", "ten" };

static void use_array(void)
{
    int *numbers = 0;
    int n;

    for (n = 0; n < 12; n++)
        arrput(numbers, n * n);
    arrins(numbers, 0, -1);
    arrins(numbers, 6, -2);
    arrdel(numbers, 3);
    arrdeln(numbers, 8, 2);
    arrdelswap(numbers, 1);
    printf("popped %d\n", arrpop(numbers));
    for (n = 0; n < arrlen(numbers); n++)
        printf("%d ", numbers[n]);
    printf("of %d\n", (int)arrcap(numbers));
    arrfree(numbers);
}

static void use_names(void)
{
    struct by_name *map = 0;
    int n;

    sh_new_arena(map); /* the map copies its keys */
    shdefault(map, -1);
    for (n = 0; n < (int)(sizeof words / sizeof words[0]); n++)
        shput(map, words[n], n + 1);
    printf("%d, %d, %d\n", shget(map, "two"), shget(map, "eight"), shget(map, "eleven"));
    shdel(map, "one");
    shdel(map, "ten");
    for (n = 0; n < shlen(map); n++)
        printf("%s is %d\n", map[n].key, map[n].value);
    shfree(map);
}

static void use_places(void)
{
    struct by_place *map = 0;
    struct place place;
    int n;

    for (n = 0; n < 40; n++) {
        place.row = n / 7;
        place.column = n % 7;
        hmput(map, place, n * 11);
    }
    place.row = 3;
    place.column = 4;
    printf("%d of %d\n", hmget(map, place), (int)hmlen(map));
    hmdel(map, place);
    printf("%d of %d\n", hmget(map, place), (int)hmlen(map));
    hmfree(map);
}

int main(void)
{
    use_array();
    use_names();
    use_places();
    return 0;
}
