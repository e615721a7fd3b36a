/* The input line of a chat: a caret walks through it as the eye sees it, what is selected is typed over, and a backspace
 * takes a letter with its marks. */
#include <bidigrid.h>
#include <stdio.h>
#include <stdlib.h>
#include <string.h>

#define WIDTH 24
#define LONGEST 64 /* characters of a line, and entries of a row */

typedef struct line {
    bidigrid_document document;
    bidigrid_position caret;
    size_t anchor; /* the other end of what is selected */
} line;

static void must(uint32_t answer)
{
    if (answer != BIDIGRID_OK) {
        fprintf(stderr, "line: %s\n", bidigrid_fault_name(answer));
        exit(1);
    }
}

static size_t selected_from(const line *it)
{
    return it->anchor < it->caret.place ? it->anchor : it->caret.place;
}

static size_t selected_to(const line *it)
{
    return it->anchor < it->caret.place ? it->caret.place : it->anchor;
}

/* Puts the caret at a place, and selects nothing. */
static void stand(line *it, size_t place)
{
    must(bidigrid_position_at(&it->document, place, &it->caret));
    it->anchor = it->caret.place;
}

/* Types words in the place of what is selected. The message would go to the others. */
static void type(line *it, const char *words)
{
    uint8_t message[BIDIGRID_REPLACED_SIZE(LONGEST, LONGEST)];
    size_t from = selected_from(it), to = selected_to(it), before, after;
    must(bidigrid_document_length(&it->document, &before));
    must(bidigrid_document_replace(&it->document, from, to, words, strlen(words), message, sizeof message, NULL));
    must(bidigrid_document_length(&it->document, &after));
    stand(it, to + after - before);
}

/* Erases what is selected, or else the cluster before the caret. */
static void backspace(line *it)
{
    if (it->anchor == it->caret.place && it->anchor > 0) {
        bidigrid_position cluster;
        must(bidigrid_position_at(&it->document, it->anchor - 1, &cluster));
        it->anchor = cluster.place;
    }
    type(it, "");
}

typedef uint32_t (*steps)(bidigrid_document *, bidigrid_position *);

/* Moves the caret; with the shift key what it passes is selected. Where two directions meet, a gap has two places: what is
 * selected begins at the one from which a step back comes. */
static void move(line *it, steps step, steps back, bool shift)
{
    bidigrid_position from = it->caret;
    must(step(&it->document, &it->caret));
    if (!shift) {
        it->anchor = it->caret.place;
    } else if (it->anchor == from.place && (it->caret.row != from.row || it->caret.gap != from.gap)) {
        from = it->caret;
        must(back(&it->document, &from));
        it->anchor = from.place;
    }
}

/* Shows the caret's row: a bar where the caret is seen, and below what is selected a line. */
static void show(line *it, const char *key)
{
    bidigrid_row row;
    bidigrid_entry entries[LONGEST];
    char print[4 * LONGEST], marks[WIDTH + 2] = "";
    size_t count, size, column;
    must(bidigrid_document_show(&it->document, it->caret.row, 0, 0, NULL));
    must(bidigrid_document_row(&it->document, 0, &row));
    must(bidigrid_document_entries(&it->document, 0, entries, LONGEST, &count));
    must(bidigrid_document_row_print(&it->document, 0, print, sizeof print, &size));
    memset(marks, ' ', WIDTH + 1);
    for (size_t number = 0; number < count; number++)
        if (entries[number].first_place >= selected_from(it) && entries[number].first_place < selected_to(it))
            memset(marks + entries[number].column, '-', entries[number].columns);
    column = row.column;
    if (it->caret.gap < count)
        column = entries[it->caret.gap].column;
    else if (count)
        column = entries[count - 1].column + entries[count - 1].columns;
    marks[column] = '^';
    printf("%-12s|%.*s|\n%-12s %s\n", key, (int)size - 1, print, "", marks);
}

int main(void)
{
    bidigrid_tables tables = BIDIGRID_NONE;
    line it = {BIDIGRID_NONE, {0, 0, 0}, 0};
    must(bidigrid_tables_unicode(&tables, false));
    must(bidigrid_document_new(&it.document, &tables, 1, WIDTH, BIDIGRID_BASE_AUTO, 0, 0));
    type(&it, "cafe\u0301 תה 2?");
    show(&it, "typed");
    move(&it, bidigrid_position_left, bidigrid_position_right, false);
    show(&it, "left");
    move(&it, bidigrid_position_left, bidigrid_position_right, true);
    move(&it, bidigrid_position_left, bidigrid_position_right, true);
    show(&it, "shift, left");
    type(&it, "x");
    show(&it, "typed over");
    stand(&it, 5); /* behind the letter with its mark, as a mouse may point there */
    backspace(&it);
    show(&it, "backspace");
    bidigrid_document_free(&it.document);
    bidigrid_tables_free(&tables);
    return 0;
}
