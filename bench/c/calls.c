/* What bench/c/main.rt.in does by the core itself, done here by calls of the C library: words say what, and how many
 * times. The work `nothing` makes as many calls that ask for a desk's length. */
#include <bidigrid.h>
#include <stdio.h>
#include <stdlib.h>
#include <string.h>

#define REPEATED 10
#define BEFORE 10000

static void must(uint32_t answer)
{
    if (answer != BIDIGRID_OK) {
        fprintf(stderr, "calls: fault %u\n", (unsigned)answer);
        exit(1);
    }
}

static size_t draws(size_t times)
{
    static const char TEXT[] =
        "The parcel (מס׳ 12) came at 9:30, תודה רבה! شاي 2.50 and the rest of a line that wraps behind it\n";
    static char text[REPEATED * sizeof TEXT];
    bidigrid_tables tables = BIDIGRID_NONE;
    bidigrid_picture picture = BIDIGRID_NONE;
    size_t all = 0, rows;
    for (size_t number = 0; number < REPEATED; number++)
        memcpy(text + number * (sizeof TEXT - 1), TEXT, sizeof TEXT);
    must(bidigrid_tables_unicode(&tables, false));
    for (size_t number = 0; number < times; number++) {
        must(bidigrid_picture_new(&picture, &tables, 80, BIDIGRID_BASE_AUTO, text, strlen(text)));
        must(bidigrid_picture_rows(&picture, &rows));
        all += rows;
    }
    bidigrid_picture_free(&picture);
    bidigrid_tables_free(&tables);
    return all;
}

static void types(size_t times, uint8_t *messages)
{
    bidigrid_desk desk = BIDIGRID_NONE;
    uint8_t unsent[BIDIGRID_TYPED_SIZE];
    size_t size;
    must(bidigrid_desk_new(&desk, 1, 0, 1));
    for (size_t number = 0; number < BEFORE; number++)
        must(bidigrid_desk_type(&desk, 0, 'x', unsent, sizeof unsent, &size));
    for (size_t number = 0; number < times; number++, messages += size)
        must(bidigrid_desk_type(&desk, (BEFORE + number) / 2, 'x', messages, BIDIGRID_TYPED_SIZE, &size));
    bidigrid_desk_free(&desk);
}

static size_t takes(size_t times, const uint8_t *messages)
{
    bidigrid_desk desk = BIDIGRID_NONE;
    bidigrid_taken told;
    size_t places;
    must(bidigrid_desk_new(&desk, 2, 0, 1));
    for (size_t number = 0; number < times; number++)
        must(bidigrid_desk_take(&desk, messages + number * BIDIGRID_TYPED_SIZE, BIDIGRID_TYPED_SIZE, &told));
    must(bidigrid_desk_length(&desk, &places));
    bidigrid_desk_free(&desk);
    return places;
}

static size_t asks(size_t times)
{
    bidigrid_desk desk = BIDIGRID_NONE;
    size_t places = 0;
    must(bidigrid_desk_new(&desk, 1, 0, 1));
    for (size_t number = 0; number < times; number++)
        must(bidigrid_desk_length(&desk, &places));
    bidigrid_desk_free(&desk);
    return places;
}

int main(int count, char **words)
{
    if (count != 3)
        return 2;
    size_t times = strtoul(words[2], NULL, 10), told = times * BIDIGRID_TYPED_SIZE;
    if (!strcmp(words[1], "draw"))
        told = draws(times);
    else if (!strcmp(words[1], "nothing"))
        told = asks(times);
    else {
        uint8_t *messages = malloc(told);
        if (!messages)
            return 1;
        types(times, messages);
        if (!strcmp(words[1], "take"))
            told = takes(times, messages);
        free(messages);
    }
    printf("%zu\n", told);
    return 0;
}
