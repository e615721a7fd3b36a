/* Lays a line of a chat out at 40 columns, and finds the letter that a mouse points at. */
#include <bidigrid.h>
#include <stdio.h>
#include <stdlib.h>
#include <string.h>

/* Ends the program with the name of a fault. */
static void stop(uint32_t fault)
{
    fprintf(stderr, "chat: %s\n", bidigrid_fault_name(fault));
    exit(1);
}

static void must(uint32_t answer)
{
    if (answer != BIDIGRID_OK)
        stop(answer);
}

int main(void)
{
    const char *line = "דנה: the parcel (מס׳ 12) came at 9:30, "
                       "תודה רבה! it is on the table";
    bidigrid_tables tables = BIDIGRID_NONE;
    bidigrid_picture picture = BIDIGRID_NONE;
    must(bidigrid_tables_unicode(&tables, false));
    must(bidigrid_picture_new(&picture, &tables, 40, BIDIGRID_BASE_LEFT_TO_RIGHT, line, strlen(line)));

    size_t size = 0;
    bidigrid_picture_print(&picture, NULL, 0, &size); /* answers BIDIGRID_FAULT_SHORT_BUFFER, and tells the size */
    char *print = malloc(size);
    if (!print)
        return 1;
    must(bidigrid_picture_print(&picture, print, size, &size));
    fwrite(print, 1, size, stdout);
    free(print);

    bidigrid_caret caret;
    must(bidigrid_caret_under(&picture, 0, 18, &caret));
    printf("row 0, column 18: gap %zu, place %zu\n", caret.gap, caret.place);
    must(bidigrid_caret_right(&picture, &caret));
    printf("one step to the right: gap %zu, place %zu\n", caret.gap, caret.place);

    bidigrid_picture_free(&picture);
    bidigrid_tables_free(&tables);
    return 0;
}
