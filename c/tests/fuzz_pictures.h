/* The fuzzer's calls at tables and at a picture, whose rows, entries and carets are compared with each other. */
#ifndef FUZZ_PICTURES_H
#define FUZZ_PICTURES_H

#include "frames.h"

static bidigrid_tables tables = BIDIGRID_NONE, read_tables = BIDIGRID_NONE;
static bidigrid_picture picture = BIDIGRID_NONE;

/* A row's print has blanks, the bytes of its entries side by side, blanks and a line feed. */
static void has_its_sizes(size_t number, bidigrid_row row, const char *line, size_t length)
{
    size_t *sizes = malloc((row.entries + 1) * sizeof *sizes), at = row.column, count;
    CHECK(sizes && bidigrid_picture_entry_sizes(&picture, number, sizes, row.entries, &count) == BIDIGRID_OK);
    CHECK(count == row.entries);
    for (size_t it = 0; it < count; it++)
        at += sizes[it];
    free(sizes);
    while (at < length && line[at] == ' ')
        at++;
    CHECK(at + 1 == length && line[at] == '\n');
}

/* The entries of a row, one by one and all at once, lie in it from left to right. */
static void has_its_entries(size_t number, bidigrid_row row)
{
    bidigrid_entry *entries = malloc((row.entries + 1) * sizeof *entries), entry;
    size_t column = row.column, count;
    CHECK(entries);
    CHECK(bidigrid_picture_entries(&picture, number, entries, row.entries, &count) == BIDIGRID_OK);
    CHECK(count == row.entries);
    for (size_t it = 0; it < count; it++) {
        CHECK(bidigrid_picture_entry(&picture, number, it, &entry) == BIDIGRID_OK && entry.column == column);
        CHECK(!memcmp(&entry, &entries[it], sizeof entry));
        CHECK(entry.first_place >= row.first_place && entry.end_place <= row.last_place);
        column += entry.columns;
    }
    CHECK(!count ||
          bidigrid_picture_entries(&picture, number, entries, count - 1, NULL) == BIDIGRID_FAULT_SHORT_BUFFER);
    free(entries);
}

/* The rows of a picture are its print, and their entries lie in them. */
static void is_its_rows(void)
{
    bytes whole = written(writes_print, &picture);
    char line[8192];
    size_t rows, at = 0, length;
    CHECK(bidigrid_picture_rows(&picture, &rows) == BIDIGRID_OK && rows > 0);
    for (size_t number = 0; number < rows; number++) {
        bidigrid_row row;
        bidigrid_entry entry;
        CHECK(bidigrid_picture_row(&picture, number, &row) == BIDIGRID_OK && row.first_place <= row.last_place);
        uint32_t answer = bidigrid_picture_row_print(&picture, number, line, sizeof line, &length);
        CHECK(answer == BIDIGRID_OK ? !memcmp(line, whole.at + at, length)
                                    : answer == BIDIGRID_FAULT_SHORT_BUFFER && length > sizeof line);
        at += length;
        has_its_entries(number, row);
        if (answer == BIDIGRID_OK)
            has_its_sizes(number, row, line, length);
        CHECK(bidigrid_picture_entry(&picture, number, row.entries, &entry) == BIDIGRID_FAULT_BAD_ENTRY);
    }
    CHECK(at == whole.size &&
          bidigrid_picture_row_print(&picture, rows, line, sizeof line, &length) == BIDIGRID_FAULT_BAD_ROW);
    free(whole.at);
}

static void draws(input *from)
{
    uint32_t width = next(from) % 8 ? 2 + next(from) % 90u : next_number(from) * (1 + next(from) * 256u) % 65539;
    uint32_t base = next(from) % 8 ? next(from) % 3u : next_number(from);
    bidigrid_tables *by = next(from) % 8 ? &tables : &read_tables;
    bytes text = make_text(from);
    uint32_t answer = bidigrid_picture_new(&picture, by, width, base, chars(text), text.size);
    if (answer == BIDIGRID_OK)
        is_its_rows();
    else
        CHECK(!by->held                  ? answer == BIDIGRID_FAULT_EMPTY_HANDLE
              : width < 2 || width > 500 ? answer == BIDIGRID_FAULT_BAD_WIDTH
              : base > 2                 ? answer == BIDIGRID_FAULT_BAD_BASE
                                         : answer == BIDIGRID_FAULT_NOT_UTF8);
    free(text.at);
}

/* A caret goes right and left, up and down, and is always one of the picture's. */
static void walks(input *from)
{
    static uint32_t (*const MOVES[])(const bidigrid_picture *, bidigrid_caret *) = {
        bidigrid_caret_right, bidigrid_caret_left, bidigrid_caret_up, bidigrid_caret_down};
    bidigrid_caret caret = {0, 0, 0}, any = {next(from), next(from), next(from)}, same;
    bool at_place = next(from) & 1;
    uint32_t answer = at_place ? bidigrid_caret_at(&picture, next_number(from), &caret)
                               : bidigrid_caret_under(&picture, next(from) % 8, next(from), &caret);
    CHECK(IS_ONE_OF(answer, BIDIGRID_OK, BIDIGRID_FAULT_EMPTY_HANDLE,
                    at_place ? BIDIGRID_FAULT_BAD_PLACE : BIDIGRID_FAULT_BAD_ROW));
    for (uint8_t steps = next(from) % 32; answer == BIDIGRID_OK && steps > 0; steps--) {
        bidigrid_row row;
        CHECK(MOVES[next(from) % 4](&picture, &caret) == BIDIGRID_OK);
        CHECK(bidigrid_picture_row(&picture, caret.row, &row) == BIDIGRID_OK && caret.gap <= row.entries);
        CHECK(bidigrid_caret_at(&picture, caret.place, &same) == BIDIGRID_OK);
    }
    answer = MOVES[next(from) % 4](&picture, &any);
    CHECK(IS_ONE_OF(answer, BIDIGRID_OK, BIDIGRID_FAULT_EMPTY_HANDLE, BIDIGRID_FAULT_BAD_CARET));
}

/* Data files of a few lines, most of them sound. */
static void reads_tables(input *from)
{
    static const char *const LINES[BIDIGRID_DATA_FILES][4] = {
        {"0041;L\n", "05D0..05EA;R\n", "0030;EN\n", "0041;Q\n"},
        {"0028; 0029; o\n", "0029; 0028; c\n", "\n", "0028; 0029\n"},
        {"0028; 0029\n", "0029; 0028\n", "# none\n", "28; 0029\n"},
        {"0041;AL\n", "0020;SP\n", "000A;LF\n", "0042..0041;AL\n"},
        {"0041;Na\n", "4E00..9FFF;W\n", "00A1;A\n", "\xFF;W\n"}};
    static char text[BIDIGRID_DATA_FILES][64];
    bidigrid_bytes files[BIDIGRID_DATA_FILES];
    for (size_t number = 0; number < BIDIGRID_DATA_FILES; number++) {
        text[number][0] = 0;
        for (uint8_t lines = next(from) % 4; lines > 0; lines--)
            strcat(text[number], LINES[number][next(from) % 16 ? next(from) % 3 : 3]);
        files[number] = (bidigrid_bytes){text[number], strlen(text[number])};
    }
    bidigrid_data_fault fault;
    uint32_t answer = bidigrid_tables_new(&read_tables, files, next(from) & 1, &fault);
    CHECK(answer == BIDIGRID_OK ? !fault.file && !fault.line
                                : answer > 400 && fault.file >= 1 && fault.file <= 5 && fault.line >= 1);
}

#endif
