/* Two desks write one text at once, meet, and show the same picture. */
#include <bidigrid.h>
#include <stdio.h>
#include <stdlib.h>
#include <string.h>

static void must(uint32_t answer)
{
    if (answer != BIDIGRID_OK) {
        fprintf(stderr, "meeting: %s\n", bidigrid_fault_name(answer));
        exit(1);
    }
}

/* Types words at the end of a desk's text, and sends the message to another desk, if one is there to hear. */
static void type_words(bidigrid_desk *desk, bidigrid_desk *other, const char *words)
{
    uint8_t message[BIDIGRID_REPLACED_SIZE(0, 16)];
    size_t size, end;
    must(bidigrid_desk_length(desk, &end));
    must(bidigrid_desk_insert(desk, end, words, strlen(words), message, sizeof message, &size));
    if (other)
        must(bidigrid_desk_take(other, message, size, NULL));
}

static void show(const char *who, const bidigrid_desk *desk, const bidigrid_tables *tables)
{
    char text[256], print[256];
    size_t size;
    bidigrid_picture picture = BIDIGRID_NONE;
    must(bidigrid_desk_text(desk, text, sizeof text, &size));
    must(bidigrid_picture_new(&picture, tables, 16, BIDIGRID_BASE_AUTO, text, size));
    must(bidigrid_picture_print(&picture, print, sizeof print, &size));
    printf("%s: %.*s", who, (int)size, print);
    bidigrid_picture_free(&picture);
}

int main(void)
{
    bidigrid_tables tables = BIDIGRID_NONE;
    bidigrid_desk one = BIDIGRID_NONE, other = BIDIGRID_NONE;
    must(bidigrid_tables_unicode(&tables, false));
    must(bidigrid_desk_new(&one, 1, 0, 0));
    must(bidigrid_desk_new(&other, 2, 0, 0));
    type_words(&one, &other, "tea ");
    type_words(&one, NULL, "hot"); /* neither sees what the other writes now */
    type_words(&other, NULL, "תה");
    show("one, apart  ", &one, &tables);
    show("other, apart", &other, &tables);
    must(bidigrid_desk_merge(&one, &other));
    must(bidigrid_desk_merge(&other, &one));
    show("one, met    ", &one, &tables);
    show("other, met  ", &other, &tables);
    bidigrid_desk_free(&one);
    bidigrid_desk_free(&other);
    bidigrid_tables_free(&tables);
    return 0;
}
