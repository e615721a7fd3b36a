/* A plain list of characters that follows a document by what it tells; and the rows that a document shows, beside those of a
 * picture of its text. */
#ifndef FOLLOW_H
#define FOLLOW_H

#include "check.h"

typedef struct followed {
    uint32_t *characters;
    size_t count, room;
} followed;

static inline void put_at(followed *it, size_t place, uint32_t character)
{
    CHECK(place <= it->count);
    if (it->count == it->room) {
        it->room = 2 * it->room + 16;
        it->characters = realloc(it->characters, it->room * sizeof *it->characters);
        CHECK(it->characters);
    }
    memmove(it->characters + place + 1, it->characters + place, (it->count - place) * sizeof *it->characters);
    it->characters[place] = character;
    it->count++;
}

static inline void cut_at(followed *it, size_t place)
{
    CHECK(place < it->count);
    it->count--;
    memmove(it->characters + place, it->characters + place + 1, (it->count - place) * sizeof *it->characters);
}

/* Makes the changes that a document tells of its last edit, take or merge, and returns how many they are. */
static inline size_t hear(followed *it, const bidigrid_document *document)
{
    size_t count;
    uint32_t answer = bidigrid_document_changes(document, NULL, 0, &count);
    CHECK(answer == (count ? BIDIGRID_FAULT_SHORT_BUFFER : BIDIGRID_OK));
    bidigrid_change *changes = malloc((count + 1) * sizeof *changes);
    CHECK(changes && bidigrid_document_changes(document, changes, count, &count) == BIDIGRID_OK);
    for (size_t number = 0; number < count; number++)
        if (changes[number].put)
            put_at(it, changes[number].place, changes[number].character);
        else
            cut_at(it, changes[number].place);
    free(changes);
    return count;
}

static inline bool is_followed(const followed *it, const bidigrid_document *document)
{
    bytes text = {malloc(4 * it->count + 1), 0};
    CHECK(text.at);
    uint8_t *end = text.at;
    for (size_t place = 0; place < it->count; place++)
        end = put_utf8(end, it->characters[place]);
    text.size = (size_t)(end - text.at);
    return same_bytes(text, written(writes_document_text, document));
}

/* A row that is shown has what this row of the picture has. */
static inline void is_row(const bidigrid_document *document, size_t shown, const bidigrid_picture *picture, size_t drawn)
{
    bidigrid_row row, wanted;
    size_t count, size, wanted_size;
    CHECK(bidigrid_document_row(document, shown, &row) == BIDIGRID_OK);
    CHECK(bidigrid_picture_row(picture, drawn, &wanted) == BIDIGRID_OK);
    CHECK(row.first_place == wanted.first_place && row.last_place == wanted.last_place);
    CHECK(row.entries == wanted.entries && row.column == wanted.column && row.level == wanted.level);
    bidigrid_entry *entries = malloc(2 * (row.entries + 1) * sizeof *entries);
    CHECK(entries && bidigrid_document_entries(document, shown, entries, row.entries, &count) == BIDIGRID_OK);
    CHECK(bidigrid_picture_entries(picture, drawn, entries + row.entries, row.entries, &count) == BIDIGRID_OK);
    CHECK(count == row.entries && !memcmp(entries, entries + count, count * sizeof *entries));
    free(entries);
    size_t *sizes = malloc(2 * (row.entries + 1) * sizeof *sizes);
    CHECK(sizes && bidigrid_document_entry_sizes(document, shown, sizes, row.entries, &count) == BIDIGRID_OK);
    CHECK(bidigrid_picture_entry_sizes(picture, drawn, sizes + row.entries, row.entries, &count) == BIDIGRID_OK);
    CHECK(count == row.entries && !memcmp(sizes, sizes + count, count * sizeof *sizes));
    free(sizes);
    CHECK(bidigrid_picture_row_print(picture, drawn, NULL, 0, &wanted_size) == BIDIGRID_FAULT_SHORT_BUFFER);
    CHECK(bidigrid_document_row_print(document, shown, NULL, 0, &size) == BIDIGRID_FAULT_SHORT_BUFFER);
    CHECK(size == wanted_size);
    char *print = malloc(2 * size);
    CHECK(print && bidigrid_document_row_print(document, shown, print, size, &size) == BIDIGRID_OK);
    CHECK(bidigrid_picture_row_print(picture, drawn, print + size, size, &size) == BIDIGRID_OK);
    CHECK(!memcmp(print, print + size, size));
    free(print);
}

/* What a document shows, all at once, is its rows one after the other. */
static inline void prints_its_rows(const bidigrid_document *document, size_t rows)
{
    bytes whole = written(writes_window, document);
    size_t at = 0, size;
    for (size_t row = 0; row < rows; row++) {
        bytes line = {malloc(whole.size - at + 1), 0};
        CHECK(line.at);
        CHECK(bidigrid_document_row_print(document, row, (char *)line.at, whole.size - at, &size) == BIDIGRID_OK);
        CHECK(!memcmp(line.at, whole.at + at, size));
        at += size;
        free(line.at);
    }
    CHECK(at == whole.size);
    free(whole.at);
}

/* Shows a window at a place at random, whose rows have to be those of a picture of the whole text. */
static inline void shows_its_rows(bidigrid_document *document, const bidigrid_tables *tables, uint32_t width,
                                  uint32_t base)
{
    bidigrid_picture picture = BIDIGRID_NONE;
    bidigrid_window window;
    bidigrid_row row;
    bytes text = written(writes_document_text, document);
    size_t places, rows, own = 0;
    CHECK(bidigrid_picture_new(&picture, tables, width, base, chars(text), text.size) == BIDIGRID_OK);
    CHECK(bidigrid_document_length(document, &places) == BIDIGRID_OK);
    CHECK(bidigrid_picture_rows(&picture, &rows) == BIDIGRID_OK);
    size_t place = below(places + 1), above = below(6), under = below(6);
    CHECK(bidigrid_document_show(document, place, above, under, &window) == BIDIGRID_OK);
    /* The row of a place is the last one that begins by it. */
    for (size_t number = 0; number < rows; number++)
        own = bidigrid_picture_row(&picture, number, &row) == BIDIGRID_OK && row.first_place <= place ? number : own;
    size_t first = own > above ? own - above : 0, end = own + under + 1 < rows ? own + under + 1 : rows;
    CHECK(window.rows == end - first && window.number == own - first);
    for (size_t number = first; number < end; number++)
        is_row(document, number - first, &picture, number);
    CHECK(bidigrid_document_row(document, window.rows, &row) == BIDIGRID_FAULT_BAD_ROW);
    prints_its_rows(document, window.rows);
    free(text.at);
    bidigrid_picture_free(&picture);
}

#endif
