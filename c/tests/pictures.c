/* Tables and pictures: each call with right and wrong arguments. Argument 1 is the folder of the data files. */
#include "check.h"

typedef struct print_row {
    const char *text;
    uint32_t width;
    const char *print;
} print_row;

/* Laid out by hand by UAX #9 and UAX #14. */
static const print_row PRINTS[] = {
    {"", 4, "    \n"},
    {"ab \u05D0\u05D1\u05D2", 8, "ab \u05D2\u05D1\u05D0  \n"},
    {"\u05D0\u05D1 12", 8, "   12 \u05D1\u05D0\n"},
    {"\u05D0(b)", 4, "(b)\u05D0\n"},
    {"ab cd", 2, "ab\ncd\n"},
    {"abcdef", 4, "abcd\nef  \n"},
    {"a\u4E16b", 2, "a \n\u4E16\nb \n"},
    {"a\r\nb", 2, "a \nb \n"},
    {"a\n", 2, "a \n  \n"},
    {"e\u0301", 2, "e\u0301 \n"},
    {"a   ", 3, "a  \n"},
    {"a \u05D0\u05D1 \u05D2\u05D3", 5, "a \u05D1\u05D0 \n\u05D3\u05D2   \n"},
    {"\u062712", 4, " 12\u0627\n"},
};

static bidigrid_picture drawn(bidigrid_tables *tables, uint32_t width, uint32_t base, const char *text)
{
    bidigrid_picture picture = BIDIGRID_NONE;
    CHECK(bidigrid_picture_new(&picture, tables, width, base, text, strlen(text)) == BIDIGRID_OK);
    return picture;
}

static void tries_prints(bidigrid_tables *tables)
{
    for (size_t i = 0; i < sizeof PRINTS / sizeof *PRINTS; i++) {
        bidigrid_picture picture = drawn(tables, PRINTS[i].width, BIDIGRID_BASE_AUTO, PRINTS[i].text);
        char out[64];
        size_t size = 0;
        CHECK(bidigrid_picture_print(&picture, out, sizeof out, &size) == BIDIGRID_OK);
        if (!is_text(out, size, PRINTS[i].print)) {
            fprintf(stderr, "row %zu: %.*s", i, (int)size, out);
            exit(1);
        }
        /* The rows one by one are the whole. */
        size_t rows = 0, at = 0;
        CHECK(bidigrid_picture_rows(&picture, &rows) == BIDIGRID_OK);
        for (size_t row = 0; row < rows; row++) {
            char line[64];
            size_t length = 0;
            CHECK(bidigrid_picture_row_print(&picture, row, line, sizeof line, &length) == BIDIGRID_OK);
            CHECK(at + length <= size && !memcmp(line, out + at, length));
            at += length;
        }
        CHECK(at == size);
        bidigrid_picture_free(&picture);
    }
}

static void tries_buffers(bidigrid_tables *tables)
{
    bidigrid_picture picture = drawn(tables, 4, BIDIGRID_BASE_AUTO, "ab\ncd");
    size_t size = 0;
    CHECK(bidigrid_picture_print(&picture, NULL, 0, &size) == BIDIGRID_FAULT_SHORT_BUFFER && size == 10);
    char out[12];
    for (size_t room = 0; room <= sizeof out; room++) {
        memset(out, '?', sizeof out);
        size = 0;
        uint32_t answer = bidigrid_picture_print(&picture, out, room, &size);
        CHECK(size == 10);
        CHECK(answer == (room < 10 ? BIDIGRID_FAULT_SHORT_BUFFER : BIDIGRID_OK));
        CHECK(!memcmp(out, room < 10 ? "????????????" : "ab  \ncd  \n??", 12));
    }
    size = 0;
    CHECK(bidigrid_picture_row_print(&picture, 1, NULL, 0, &size) == BIDIGRID_FAULT_SHORT_BUFFER && size == 5);
    CHECK(bidigrid_picture_row_print(&picture, 2, out, sizeof out, &size) == BIDIGRID_FAULT_BAD_ROW && size == 0);
    CHECK(bidigrid_picture_row_print(&picture, SIZE_MAX, out, sizeof out, &size) == BIDIGRID_FAULT_BAD_ROW);
    bidigrid_picture_free(&picture);
}

static void tries_rows(bidigrid_tables *tables)
{
    bidigrid_picture picture = drawn(tables, 5, BIDIGRID_BASE_AUTO, "a\u05D0\n\u05D0\u05D1\n");
    size_t rows = 0;
    bidigrid_row row;
    bidigrid_entry entry;
    CHECK(bidigrid_picture_rows(&picture, &rows) == BIDIGRID_OK && rows == 3);
    CHECK(bidigrid_picture_row(&picture, 0, &row) == BIDIGRID_OK);
    CHECK(row.first_place == 0 && row.last_place == 3 && row.entries == 3 && row.column == 0 && row.level == 0);
    CHECK(bidigrid_picture_row(&picture, 1, &row) == BIDIGRID_OK);
    CHECK(row.first_place == 3 && row.last_place == 6 && row.entries == 3 && row.column == 3 && row.level == 1);
    /* Left of the two letters stands their line feed, which has no cell. */
    CHECK(bidigrid_picture_entry(&picture, 1, 0, &entry) == BIDIGRID_OK);
    CHECK(entry.first_place == 5 && entry.columns == 0);
    CHECK(bidigrid_picture_entry(&picture, 1, 1, &entry) == BIDIGRID_OK);
    CHECK(entry.first_place == 4 && entry.end_place == 5 && entry.first_byte == 6 && entry.end_byte == 8);
    CHECK(entry.column == 3 && entry.columns == 1 && entry.level == 1);
    CHECK(bidigrid_picture_entry(&picture, 1, 2, &entry) == BIDIGRID_OK && entry.first_place == 3);
    CHECK(bidigrid_picture_row(&picture, 2, &row) == BIDIGRID_OK && row.entries == 0 && row.first_place == 6);
    CHECK(bidigrid_picture_row(&picture, 3, &row) == BIDIGRID_FAULT_BAD_ROW);
    CHECK(row.first_place == 0 && row.last_place == 0 && row.entries == 0 && row.column == 0 && row.level == 0);
    CHECK(bidigrid_picture_entry(&picture, 3, 0, &entry) == BIDIGRID_FAULT_BAD_ROW && entry.first_place == 0);
    CHECK(bidigrid_picture_entry(&picture, 1, 3, &entry) == BIDIGRID_FAULT_BAD_ENTRY);
    CHECK(bidigrid_picture_entry(&picture, 2, 0, &entry) == BIDIGRID_FAULT_BAD_ENTRY);
    /* All entries of a row at once. */
    bidigrid_entry entries[4];
    size_t count = 7;
    memset(entries, '?', sizeof entries);
    CHECK(bidigrid_picture_entries(&picture, 1, NULL, 0, &count) == BIDIGRID_FAULT_SHORT_BUFFER && count == 3);
    CHECK(bidigrid_picture_entries(&picture, 1, entries, 2, &count) == BIDIGRID_FAULT_SHORT_BUFFER && count == 3);
    CHECK(entries[0].level == 0x3F3F3F3F && bidigrid_picture_entries(&picture, 1, entries, 4, &count) == BIDIGRID_OK);
    CHECK(count == 3 && entries[3].level == 0x3F3F3F3F);
    for (size_t i = 0; i < count; i++)
        CHECK(bidigrid_picture_entry(&picture, 1, i, &entry) == BIDIGRID_OK && !memcmp(&entry, &entries[i], sizeof entry));
    CHECK(bidigrid_picture_entries(&picture, 2, NULL, 0, &count) == BIDIGRID_OK && count == 0);
    CHECK(bidigrid_picture_entries(&picture, 3, entries, 4, &count) == BIDIGRID_FAULT_BAD_ROW && count == 0);
    bidigrid_picture_free(&picture);
    bidigrid_picture_free(NULL);
}

/* How many bytes each entry has in its row's print: in the first row a line feed, mirrored brackets and letters, behind
 * one blank; in the second a letter with its mark, a tab and a letter. */
static void tries_sizes(bidigrid_tables *tables)
{
    bidigrid_picture picture = drawn(tables, 5, BIDIGRID_BASE_AUTO, "\u05D0(\u05D1)\na\u0301\tb");
    const size_t first[] = {0, 1, 2, 1, 2}, second[] = {3, 1, 1};
    size_t sizes[6], count = 7, size;
    char line[16];
    CHECK(bidigrid_picture_row_print(&picture, 0, line, sizeof line, &size) == BIDIGRID_OK);
    CHECK(size == 8 && !memcmp(line, " (\u05D1)\u05D0\n", size));
    CHECK(bidigrid_picture_entry_sizes(&picture, 0, NULL, 0, &count) == BIDIGRID_FAULT_SHORT_BUFFER && count == 5);
    memset(sizes, '?', sizeof sizes);
    size_t unwritten = sizes[5];
    CHECK(bidigrid_picture_entry_sizes(&picture, 0, sizes, 4, &count) == BIDIGRID_FAULT_SHORT_BUFFER && count == 5);
    CHECK(sizes[0] == unwritten && bidigrid_picture_entry_sizes(&picture, 0, sizes, 6, &count) == BIDIGRID_OK);
    CHECK(count == 5 && !memcmp(sizes, first, sizeof first) && sizes[5] == unwritten);
    CHECK(bidigrid_picture_entry_sizes(&picture, 1, sizes, 3, &count) == BIDIGRID_OK);
    CHECK(count == 3 && !memcmp(sizes, second, sizeof second));
    CHECK(bidigrid_picture_entry_sizes(&picture, 1, sizes, 3, NULL) == BIDIGRID_OK);
    CHECK(bidigrid_picture_entry_sizes(&picture, 2, sizes, 6, &count) == BIDIGRID_FAULT_BAD_ROW && count == 0);
    bidigrid_picture_free(&picture);
    picture = drawn(tables, 5, BIDIGRID_BASE_AUTO, "");
    CHECK(bidigrid_picture_entry_sizes(&picture, 0, NULL, 0, &count) == BIDIGRID_OK && count == 0);
    bidigrid_picture_free(&picture);
}

static bool is_at(bidigrid_caret caret, size_t row, size_t gap, size_t place)
{
    return caret.row == row && caret.gap == gap && caret.place == place;
}

static void tries_carets(bidigrid_tables *tables)
{
    bidigrid_picture picture = drawn(tables, 8, BIDIGRID_BASE_AUTO, "ab \u05D0\u05D1\u05D2");
    bidigrid_caret caret;
    CHECK(bidigrid_caret_at(&picture, 3, &caret) == BIDIGRID_OK && is_at(caret, 0, 6, 3));
    CHECK(bidigrid_caret_left(&picture, &caret) == BIDIGRID_OK && is_at(caret, 0, 5, 4));
    CHECK(bidigrid_caret_left(&picture, &caret) == BIDIGRID_OK && is_at(caret, 0, 4, 5));
    CHECK(bidigrid_caret_left(&picture, &caret) == BIDIGRID_OK && is_at(caret, 0, 3, 6));
    CHECK(bidigrid_caret_left(&picture, &caret) == BIDIGRID_OK && is_at(caret, 0, 2, 2));
    CHECK(bidigrid_caret_right(&picture, &caret) == BIDIGRID_OK && is_at(caret, 0, 3, 3));
    CHECK(bidigrid_caret_at(&picture, 7, &caret) == BIDIGRID_FAULT_BAD_PLACE && is_at(caret, 0, 0, 0));
    CHECK(bidigrid_caret_at(&picture, 6, &caret) == BIDIGRID_OK && is_at(caret, 0, 3, 6));
    bidigrid_caret wrong = {0, 7, 0};
    CHECK(bidigrid_caret_right(&picture, &wrong) == BIDIGRID_FAULT_BAD_CARET && is_at(wrong, 0, 7, 0));
    wrong = (bidigrid_caret){1, 0, 0};
    CHECK(bidigrid_caret_left(&picture, &wrong) == BIDIGRID_FAULT_BAD_CARET);
    CHECK(bidigrid_caret_up(&picture, &wrong) == BIDIGRID_FAULT_BAD_CARET);
    wrong = (bidigrid_caret){SIZE_MAX, SIZE_MAX, SIZE_MAX};
    CHECK(bidigrid_caret_down(&picture, &wrong) == BIDIGRID_FAULT_BAD_CARET);
    bidigrid_picture_free(&picture);
    picture = drawn(tables, 4, BIDIGRID_BASE_AUTO, "abc\nd\n\u4E16e");
    CHECK(bidigrid_caret_under(&picture, 0, 2, &caret) == BIDIGRID_OK && is_at(caret, 0, 2, 2));
    CHECK(bidigrid_caret_down(&picture, &caret) == BIDIGRID_OK && caret.row == 1);
    CHECK(bidigrid_caret_down(&picture, &caret) == BIDIGRID_OK && caret.row == 2);
    CHECK(bidigrid_caret_down(&picture, &caret) == BIDIGRID_OK && caret.row == 2);
    CHECK(bidigrid_caret_up(&picture, &caret) == BIDIGRID_OK && caret.row == 1);
    CHECK(bidigrid_caret_under(&picture, 2, 1, &caret) == BIDIGRID_OK && is_at(caret, 2, 0, 6));
    CHECK(bidigrid_caret_under(&picture, 2, 400, &caret) == BIDIGRID_OK && is_at(caret, 2, 2, 8));
    CHECK(bidigrid_caret_under(&picture, 3, 0, &caret) == BIDIGRID_FAULT_BAD_ROW && is_at(caret, 0, 0, 0));
    bidigrid_picture_free(&picture);
}

static void tries_wrong_texts(bidigrid_tables *tables)
{
    bidigrid_picture picture = drawn(tables, 2, BIDIGRID_BASE_LEFT_TO_RIGHT, "a");
    void *held = picture.held;
    CHECK(bidigrid_picture_new(&picture, tables, 1, 0, "a", 1) == BIDIGRID_FAULT_BAD_WIDTH);
    CHECK(bidigrid_picture_new(&picture, tables, 65616, 0, "a", 1) == BIDIGRID_FAULT_BAD_WIDTH);
    CHECK(bidigrid_picture_new(&picture, tables, 501, 0, "a", 1) == BIDIGRID_FAULT_BAD_WIDTH);
    CHECK(bidigrid_picture_new(&picture, tables, 2, 3, "a", 1) == BIDIGRID_FAULT_BAD_BASE);
    CHECK(bidigrid_picture_new(&picture, tables, 2, 256, "a", 1) == BIDIGRID_FAULT_BAD_BASE);
    CHECK(bidigrid_picture_new(&picture, tables, 2, 255, "a", 1) == BIDIGRID_FAULT_BAD_BASE);
    CHECK(bidigrid_picture_new(&picture, tables, 2, 0, "\xC3", 1) == BIDIGRID_FAULT_NOT_UTF8);
    CHECK(bidigrid_picture_new(&picture, tables, 2, 0, "\xED\xA0\x80", 3) == BIDIGRID_FAULT_NOT_UTF8);
    char *large = malloc(BIDIGRID_MAX_TEXT_SIZE + 1);
    CHECK(large);
    memset(large, 'a', BIDIGRID_MAX_TEXT_SIZE + 1);
    CHECK(bidigrid_picture_new(&picture, tables, 2, 0, large, BIDIGRID_MAX_TEXT_SIZE + 1) == BIDIGRID_FAULT_TEXT_TOO_LONG);
    free(large);
    CHECK(picture.held == held);
    bidigrid_tables none = BIDIGRID_NONE;
    CHECK(bidigrid_picture_new(&picture, &none, 2, 0, "a", 1) == BIDIGRID_FAULT_EMPTY_HANDLE && picture.held == held);
    /* A picture that is made anew; and one of nothing. */
    CHECK(bidigrid_picture_new(&picture, tables, 500, BIDIGRID_BASE_RIGHT_TO_LEFT, NULL, 0) == BIDIGRID_OK);
    bidigrid_row row;
    CHECK(bidigrid_picture_row(&picture, 0, &row) == BIDIGRID_OK && row.level == 1 && row.column == 500);
    bidigrid_picture_free(&picture);
    bidigrid_picture_free(&picture);
    CHECK(!picture.held);
}

static void tries_empty_handles(void)
{
    bidigrid_picture none = BIDIGRID_NONE;
    size_t size = 7;
    char out[4];
    bidigrid_row row;
    bidigrid_entry entry;
    bidigrid_caret caret = {0, 0, 0};
    CHECK(bidigrid_picture_rows(&none, &size) == BIDIGRID_FAULT_EMPTY_HANDLE && size == 0);
    size = 7;
    CHECK(bidigrid_picture_entries(&none, 0, NULL, 0, &size) == BIDIGRID_FAULT_EMPTY_HANDLE && size == 0);
    size = 7;
    CHECK(bidigrid_picture_entry_sizes(&none, 0, NULL, 0, &size) == BIDIGRID_FAULT_EMPTY_HANDLE && size == 0);
    size = 7;
    CHECK(bidigrid_picture_row(&none, 0, &row) == BIDIGRID_FAULT_EMPTY_HANDLE);
    CHECK(bidigrid_picture_entry(&none, 0, 0, &entry) == BIDIGRID_FAULT_EMPTY_HANDLE);
    CHECK(bidigrid_picture_print(&none, out, sizeof out, &size) == BIDIGRID_FAULT_EMPTY_HANDLE && size == 0);
    CHECK(bidigrid_picture_row_print(&none, 0, out, sizeof out, &size) == BIDIGRID_FAULT_EMPTY_HANDLE);
    CHECK(bidigrid_caret_at(&none, 0, &caret) == BIDIGRID_FAULT_EMPTY_HANDLE);
    CHECK(bidigrid_caret_under(&none, 0, 0, &caret) == BIDIGRID_FAULT_EMPTY_HANDLE);
    CHECK(bidigrid_caret_right(&none, &caret) == BIDIGRID_FAULT_EMPTY_HANDLE);
    CHECK(bidigrid_caret_left(&none, &caret) == BIDIGRID_FAULT_EMPTY_HANDLE);
    CHECK(bidigrid_caret_up(&none, &caret) == BIDIGRID_FAULT_EMPTY_HANDLE);
    CHECK(bidigrid_caret_down(&none, &caret) == BIDIGRID_FAULT_EMPTY_HANDLE);
    bidigrid_picture_free(&none);
}

static uint32_t load(bidigrid_tables *out, const bytes file[BIDIGRID_DATA_FILES], bidigrid_data_fault *fault)
{
    bidigrid_bytes files[BIDIGRID_DATA_FILES];
    for (size_t i = 0; i < BIDIGRID_DATA_FILES; i++)
        files[i] = (bidigrid_bytes){file[i].at, file[i].size};
    return bidigrid_tables_new(out, files, false, fault);
}

/* The tables inside the library are those of the data files, by what they draw. */
static void tries_tables(bidigrid_tables *tables, const char *folder)
{
    static const char *const NAMES[5] = {"DerivedBidiClass.txt", "BidiBrackets.txt", "BidiMirroring.txt",
                                         "LineBreak.txt", "EastAsianWidth.txt"};
    static const char TEXT[] = "a(\u05D0) \u0627\u0660 \u4E16\u2014\u00AB\u05D0\u00BB 12\u20AC \u2067x\u2069 [\u0628]";
    bytes file[5];
    for (size_t i = 0; i < 5; i++)
        file[i] = read_file(folder, NAMES[i]);
    bidigrid_tables read = BIDIGRID_NONE;
    bidigrid_data_fault fault = {7, 7};
    CHECK(load(&read, file, &fault) == BIDIGRID_OK && fault.file == 0 && fault.line == 0);
    bidigrid_picture one = drawn(tables, 7, BIDIGRID_BASE_AUTO, TEXT), other = drawn(&read, 7, BIDIGRID_BASE_AUTO, TEXT);
    char first[256], second[256];
    size_t size = 0, same = 0;
    CHECK(bidigrid_picture_print(&one, first, sizeof first, &size) == BIDIGRID_OK);
    CHECK(bidigrid_picture_print(&other, second, sizeof second, &same) == BIDIGRID_OK);
    CHECK(size == same && !memcmp(first, second, size));
    /* A picture has a share in its tables. */
    void *held = read.held;
    static const struct { size_t file; const char *bytes; uint32_t answer; size_t line; } FAULTS[] = {
        {0, "0041;L\n0042;Q\n", BIDIGRID_FAULT_UNKNOWN_VALUE, 2}, {1, "0028; 0029\n", BIDIGRID_FAULT_MISSING_FIELD, 1},
        {2, "28; 0029\n", BIDIGRID_FAULT_BAD_CODE, 1},            {3, "\n\n0042..0041;AL\n", BIDIGRID_FAULT_BAD_RANGE, 3},
        {4, "\xFF;W\n", BIDIGRID_FAULT_BAD_UTF8, 1},
    };
    for (size_t i = 0; i < 5; i++) {
        bytes kept = file[FAULTS[i].file];
        bytes faulty = {malloc(strlen(FAULTS[i].bytes)), strlen(FAULTS[i].bytes)};
        CHECK(faulty.at);
        memcpy(faulty.at, FAULTS[i].bytes, faulty.size);
        file[FAULTS[i].file] = faulty;
        CHECK(load(&read, file, &fault) == FAULTS[i].answer && read.held == held);
        CHECK(fault.file == FAULTS[i].file + 1 && fault.line == FAULTS[i].line);
        free(faulty.at);
        file[FAULTS[i].file] = kept;
    }
    bidigrid_tables_free(&read);
    bidigrid_tables_free(&read);
    CHECK(!read.held);
    CHECK(bidigrid_picture_print(&other, second, sizeof second, &same) == BIDIGRID_OK && size == same);
    bidigrid_picture_free(&one);
    bidigrid_picture_free(&other);
    for (size_t i = 0; i < 5; i++)
        free(file[i].at);
    /* No files at all are tables too, in which each character is L. */
    bytes nothing[5] = {{NULL, 0}, {NULL, 0}, {NULL, 0}, {NULL, 0}, {NULL, 0}};
    CHECK(load(&read, nothing, &fault) == BIDIGRID_OK);
    bidigrid_tables_free(&read);
}

static void tries_width_of_ambiguous(void)
{
    for (int wide = 0; wide < 2; wide++) {
        bidigrid_tables tables = BIDIGRID_NONE;
        CHECK(bidigrid_tables_unicode(&tables, wide) == BIDIGRID_OK);
        bidigrid_picture picture = drawn(&tables, 4, BIDIGRID_BASE_AUTO, "\u03B1");
        bidigrid_entry entry;
        CHECK(bidigrid_picture_entry(&picture, 0, 0, &entry) == BIDIGRID_OK && entry.columns == (wide ? 2u : 1u));
        bidigrid_picture_free(&picture);
        bidigrid_tables_free(&tables);
    }
}

static bool is_named(uint32_t answer, const char *name)
{
    return !strcmp(bidigrid_fault_name(answer), name) && strlen(name) < 32;
}

static void tries_names(void)
{
    CHECK(bidigrid_version() == BIDIGRID_VERSION);
    CHECK(is_named(BIDIGRID_OK, "Ok") && is_named(BIDIGRID_FAULT_MEMORY, "Memory"));
    CHECK(is_named(BIDIGRID_FAULT_EMPTY_HANDLE, "EmptyHandle") && is_named(BIDIGRID_FAULT_SHORT_BUFFER, "ShortBuffer"));
    CHECK(is_named(BIDIGRID_FAULT_NOT_UTF8, "NotUtf8") && is_named(BIDIGRID_FAULT_TEXT_TOO_LONG, "TextTooLong"));
    CHECK(is_named(BIDIGRID_FAULT_BAD_WIDTH, "BadWidth") && is_named(BIDIGRID_FAULT_BAD_BASE, "BadBase"));
    CHECK(is_named(BIDIGRID_FAULT_BAD_PLACE, "BadPlace") && is_named(BIDIGRID_FAULT_BAD_ROW, "BadRow"));
    CHECK(is_named(BIDIGRID_FAULT_BAD_ENTRY, "BadEntry") && is_named(BIDIGRID_FAULT_BAD_CARET, "BadCaret"));
    CHECK(is_named(BIDIGRID_FAULT_BAD_CHARACTER, "BadCharacter") && is_named(BIDIGRID_FAULT_BAD_SITE, "BadSite"));
    CHECK(is_named(BIDIGRID_FAULT_BAD_IDENTIFIER, "BadIdentifier") && is_named(BIDIGRID_FAULT_NOT_PLACED, "NotPlaced"));
    CHECK(is_named(BIDIGRID_FAULT_MESSAGE_TOO_LONG, "MessageTooLong"));
    CHECK(is_named(BIDIGRID_FAULT_TOO_MANY, "TooMany") && is_named(BIDIGRID_FAULT_IDENTIFIER_REUSED, "IdentifierReused"));
    CHECK(is_named(BIDIGRID_FAULT_FULL, "Full") && is_named(BIDIGRID_FAULT_COUNTER_SPENT, "CounterSpent"));
    CHECK(is_named(BIDIGRID_FAULT_BAD_MAGIC, "BadMagic") && is_named(BIDIGRID_FAULT_BAD_VERSION, "BadVersion"));
    CHECK(is_named(BIDIGRID_FAULT_TRUNCATED, "Truncated") && is_named(BIDIGRID_FAULT_UNKNOWN_KIND, "UnknownKind"));
    CHECK(is_named(BIDIGRID_FAULT_BAD_LENGTH, "BadLength") && is_named(BIDIGRID_FAULT_ZERO_FIELD, "ZeroField"));
    CHECK(is_named(BIDIGRID_FAULT_PARENT_NOT_BEFORE, "ParentNotBefore") && is_named(BIDIGRID_FAULT_NOT_A_SCALAR, "NotAScalar"));
    CHECK(is_named(BIDIGRID_FAULT_COUNTER_OVERFLOW, "CounterOverflow") && is_named(BIDIGRID_FAULT_NOT_JOINED, "NotJoined"));
    CHECK(is_named(BIDIGRID_FAULT_BAD_UTF8, "BadUtf8") && is_named(BIDIGRID_FAULT_BAD_CODE, "BadCode"));
    CHECK(is_named(BIDIGRID_FAULT_BAD_RANGE, "BadRange") && is_named(BIDIGRID_FAULT_MISSING_FIELD, "MissingField"));
    CHECK(is_named(BIDIGRID_FAULT_UNKNOWN_VALUE, "UnknownValue") && is_named(12345, "Unknown"));
}

int main(int count, char **words)
{
    CHECK(count == 2);
    bidigrid_tables tables = BIDIGRID_NONE;
    CHECK(bidigrid_tables_unicode(&tables, false) == BIDIGRID_OK);
    tries_prints(&tables);
    tries_buffers(&tables);
    tries_rows(&tables);
    tries_sizes(&tables);
    tries_carets(&tables);
    tries_wrong_texts(&tables);
    tries_empty_handles();
    tries_tables(&tables, words[1]);
    tries_width_of_ambiguous();
    tries_names();
    bidigrid_tables_free(&tables);
    puts("pictures: as they have to be");
    return 0;
}
