/* Documents: each call with right and wrong arguments. */
#include "documents.h"

static void tries_making(void)
{
    bidigrid_document document = made(3, 8);
    bidigrid_tables none = BIDIGRID_NONE;
    void *held = document.held;
    CHECK(held && has_text(&document, "") && shows_nothing(&document) && tells(&document, ""));
    CHECK(make(&document, &none, 3, 8, 0) == BIDIGRID_FAULT_EMPTY_HANDLE && document.held == held);
    CHECK(make(&document, &tables, 0, 8, 0) == BIDIGRID_FAULT_BAD_SITE && document.held == held);
    CHECK(make(&document, &tables, BIDIGRID_MAX_SITE + 2, 8, 0) == BIDIGRID_FAULT_BAD_SITE);
    CHECK(make(&document, &tables, 3, 1, 0) == BIDIGRID_FAULT_BAD_WIDTH);
    CHECK(make(&document, &tables, 3, 501, 0) == BIDIGRID_FAULT_BAD_WIDTH);
    CHECK(make(&document, &tables, 3, 65544, 0) == BIDIGRID_FAULT_BAD_WIDTH); /* 8, were it narrowed */
    CHECK(make(&document, &tables, 3, 8, 3) == BIDIGRID_FAULT_BAD_BASE);
    CHECK(make(&document, &tables, 3, 8, 256) == BIDIGRID_FAULT_BAD_BASE && document.held == held);
    CHECK(make(&document, &tables, 4, 500, 2) == BIDIGRID_OK && has_text(&document, ""));
    bidigrid_document_free(&document);
    bidigrid_document_free(&document);
    bidigrid_document_free(NULL);
    CHECK(!document.held);
}

/* Edits, each with its message byte by byte, which makes another document the same. */
static void tries_edits(void)
{
    static const uint8_t TYPED[] = {'B', 'G', 'O', 'P', 1, 0, 17, 1, 0, 0, 0, 1, 0, 3, 0, 0, 0, 0, 0, 0, 0, 0, 0, 'a',
                                    0,   17,  1,   0,   0, 0, 2,  0, 3, 0, 0, 0, 1, 0, 3, 0, 0, 0x05, 0xD0};
    static const uint8_t GONE[] = {'B', 'G', 'O', 'P', 1, 0, 7, 2, 0, 0, 0, 1, 0, 3};
    bidigrid_document document = made(3, 8), other = made(4, 8);
    bidigrid_taken told;
    uint8_t out[256];
    bytes message = {out, 0};
    memset(out, '?', sizeof out);
    CHECK(bidigrid_document_insert(&document, 0, "a\u05D0", 3, out, sizeof TYPED - 1, &message.size) ==
          BIDIGRID_FAULT_SHORT_BUFFER);
    CHECK(message.size == sizeof TYPED && out[0] == '?' && has_text(&document, ""));
    CHECK(bidigrid_document_insert(&document, 0, "a\u05D0", 3, NULL, 0, &message.size) == BIDIGRID_FAULT_SHORT_BUFFER);
    CHECK(insert(&document, 1, "a", &message) == BIDIGRID_FAULT_BAD_PLACE && message.size == 0);
    CHECK(insert(&document, SIZE_MAX, "a", &message) == BIDIGRID_FAULT_BAD_PLACE);
    CHECK(insert(&document, 0, "a\xFF", &message) == BIDIGRID_FAULT_NOT_UTF8 && message.size == 0 && out[0] == '?');
    CHECK(insert(&document, 0, "a\u05D0", &message) == BIDIGRID_OK && has_text(&document, "a\u05D0"));
    CHECK(message.size == sizeof TYPED && !memcmp(out, TYPED, sizeof TYPED) && out[sizeof TYPED] == '?');
    CHECK(bidigrid_document_take(&other, out, message.size, &told) == BIDIGRID_OK && told.taken == 2);
    CHECK(has_text(&other, "a\u05D0"));
    CHECK(bidigrid_document_erase(&document, 0, 1, out, sizeof GONE - 1, &message.size) == BIDIGRID_FAULT_SHORT_BUFFER);
    CHECK(message.size == sizeof GONE && has_text(&document, "a\u05D0"));
    CHECK(bidigrid_document_erase(&document, 1, 0, out, sizeof out, &message.size) == BIDIGRID_FAULT_BAD_PLACE);
    CHECK(bidigrid_document_erase(&document, 2, 3, out, sizeof out, &message.size) == BIDIGRID_FAULT_BAD_PLACE);
    CHECK(bidigrid_document_erase(&document, 0, 1, out, sizeof out, &message.size) == BIDIGRID_OK);
    CHECK(message.size == sizeof GONE && !memcmp(out, GONE, sizeof GONE) && has_text(&document, "\u05D0"));
    CHECK(bidigrid_document_take(&other, out, message.size, NULL) == BIDIGRID_OK && has_text(&other, "\u05D0"));
    CHECK(replace(&document, 0, 1, "xyz", &message) == BIDIGRID_OK);
    CHECK(message.size == BIDIGRID_REPLACED_SIZE(1, 3) && has_text(&document, "xyz"));
    CHECK(tells(&document, "0- 0+x 1+y 2+z "));
    CHECK(bidigrid_document_take(&other, out, message.size, NULL) == BIDIGRID_OK && has_text(&other, "xyz"));
    CHECK(replace(&document, 2, 1, "", &message) == BIDIGRID_FAULT_BAD_PLACE && tells(&document, "0- 0+x 1+y 2+z "));
    CHECK(replace(&document, 0, 4, "", &message) == BIDIGRID_FAULT_BAD_PLACE);
    CHECK(replace(&document, 0, 3, "", &message) == BIDIGRID_OK);
    CHECK(has_text(&document, "") && message.size == BIDIGRID_REPLACED_SIZE(3, 0) && tells(&document, "0- 0- 0- "));
    bidigrid_document_free(&document);
    bidigrid_document_free(&other);
}

/* Rows by hand: three paragraphs, of which the second is from right to left and takes two rows. */
static void tries_windows(void)
{
    bidigrid_document document = made(1, 4);
    uint8_t out[256];
    bytes message = {out, 0};
    bidigrid_window window;
    CHECK(insert(&document, 0, "ab\n\u05D0\u05D1 cd\nef", &message) == BIDIGRID_OK && shows_nothing(&document));
    CHECK(shows(&document, 0, 0, 0, 1, 0, "ab  \n"));
    CHECK(shows(&document, 0, 9, 9, 4, 0, "ab  \n  \u05D1\u05D0\n  cd\nef  \n"));
    CHECK(shows(&document, 6, 1, 0, 2, 1, "  \u05D1\u05D0\n  cd\n"));
    CHECK(shows(&document, 11, 1, 5, 2, 1, "  cd\nef  \n"));
    CHECK(shows(&document, 3, BIDIGRID_MAX_WINDOW_ROWS, 0, 2, 1, "ab  \n  \u05D1\u05D0\n"));
    /* Wrong ones leave what is shown. */
    CHECK(bidigrid_document_show(&document, 12, 1, 1, &window) == BIDIGRID_FAULT_BAD_PLACE);
    CHECK(window.rows == 0 && window.number == 0);
    CHECK(bidigrid_document_show(&document, 0, BIDIGRID_MAX_WINDOW_ROWS + 1, 0, &window) == BIDIGRID_FAULT_BAD_ROW);
    CHECK(bidigrid_document_show(&document, 0, 0, SIZE_MAX, &window) == BIDIGRID_FAULT_BAD_ROW);
    char print[32], line[32];
    size_t size, length;
    CHECK(bidigrid_document_print(&document, print, sizeof print, &size) == BIDIGRID_OK);
    CHECK(is_text(print, size, "ab  \n  \u05D1\u05D0\n"));
    /* Each row and its entries, with places and bytes of the whole text. */
    bidigrid_row row;
    bidigrid_entry entries[4];
    size_t count = 7;
    CHECK(bidigrid_document_row(&document, 1, &row) == BIDIGRID_OK);
    CHECK(row.first_place == 3 && row.last_place == 6 && row.entries == 3 && row.level == 1);
    CHECK(row.column == 1);
    CHECK(bidigrid_document_entries(&document, 1, NULL, 0, &count) == BIDIGRID_FAULT_SHORT_BUFFER && count == 3);
    memset(entries, '?', sizeof entries);
    CHECK(bidigrid_document_entries(&document, 1, entries, 2, &count) == BIDIGRID_FAULT_SHORT_BUFFER && count == 3);
    CHECK(entries[0].level == 0x3F3F3F3F);
    CHECK(bidigrid_document_entries(&document, 1, entries, 4, &count) == BIDIGRID_OK && count == 3);
    CHECK(entries[3].level == 0x3F3F3F3F && entries[2].first_place == 3 && entries[2].first_byte == 3);
    CHECK(entries[1].first_place == 4 && entries[1].end_place == 5);
    CHECK(entries[1].first_byte == 5 && entries[1].end_byte == 7);
    size_t sizes[4];
    memset(sizes, '?', sizeof sizes);
    size_t unwritten = sizes[3];
    CHECK(bidigrid_document_entry_sizes(&document, 1, sizes, 2, &count) == BIDIGRID_FAULT_SHORT_BUFFER && count == 3);
    CHECK(sizes[0] == unwritten && bidigrid_document_entry_sizes(&document, 1, sizes, 4, &count) == BIDIGRID_OK);
    CHECK(count == 3 && sizes[0] == 1 && sizes[1] == 2 && sizes[2] == 2 && sizes[3] == unwritten);
    CHECK(bidigrid_document_entry_sizes(&document, 2, sizes, 4, &count) == BIDIGRID_FAULT_BAD_ROW && count == 0);
    CHECK(bidigrid_document_row_print(&document, 1, line, sizeof line, &length) == BIDIGRID_OK);
    CHECK(is_text(line, length, "  \u05D1\u05D0\n"));
    CHECK(bidigrid_document_row_print(&document, 1, NULL, 0, &length) == BIDIGRID_FAULT_SHORT_BUFFER && length == 7);
    CHECK(bidigrid_document_row_print(&document, 1, line, 6, &length) == BIDIGRID_FAULT_SHORT_BUFFER && length == 7);
    CHECK(bidigrid_document_row_print(&document, 2, line, sizeof line, &length) == BIDIGRID_FAULT_BAD_ROW);
    CHECK(length == 0);
    CHECK(bidigrid_document_row(&document, 2, &row) == BIDIGRID_FAULT_BAD_ROW && row.last_place == 0);
    CHECK(bidigrid_document_entries(&document, SIZE_MAX, entries, 4, &count) == BIDIGRID_FAULT_BAD_ROW && count == 0);
    /* After a change nothing is shown, and another width or base is drawn. */
    CHECK(insert(&document, 0, "z", &message) == BIDIGRID_OK && shows_nothing(&document));
    CHECK(shows(&document, 0, 0, 0, 1, 0, "zab \n"));
    CHECK(bidigrid_document_resize(&document, 1) == BIDIGRID_FAULT_BAD_WIDTH);
    CHECK(bidigrid_document_resize(&document, 65540) == BIDIGRID_FAULT_BAD_WIDTH);
    CHECK(bidigrid_document_set_base(&document, 3) == BIDIGRID_FAULT_BAD_BASE && !shows_nothing(&document));
    CHECK(bidigrid_document_resize(&document, 6) == BIDIGRID_OK && shows_nothing(&document));
    CHECK(shows(&document, 0, 0, 0, 1, 0, "zab   \n"));
    CHECK(bidigrid_document_set_base(&document, BIDIGRID_BASE_RIGHT_TO_LEFT) == BIDIGRID_OK);
    CHECK(shows_nothing(&document));
    CHECK(shows(&document, 0, 0, 0, 1, 0, "   zab\n"));
    bidigrid_document_free(&document);
}

static void tries_room(void)
{
    bidigrid_document document = made(1, 8);
    CHECK(bidigrid_document_reserve(&document, BIDIGRID_MAX_OPERATIONS + 1) == BIDIGRID_FAULT_TOO_MANY);
    CHECK(bidigrid_document_reserve(&document, SIZE_MAX) == BIDIGRID_FAULT_TOO_MANY);
    CHECK(bidigrid_document_reserve(&document, 0) == BIDIGRID_OK);
    CHECK(bidigrid_document_reserve(&document, 100) == BIDIGRID_OK);
    CHECK(bidigrid_document_keep_rows(&document, BIDIGRID_MAX_OPERATIONS + 1) == BIDIGRID_FAULT_TOO_MANY);
    CHECK(bidigrid_document_keep_rows(&document, SIZE_MAX) == BIDIGRID_FAULT_TOO_MANY);
    CHECK(shows(&document, 0, 0, 0, 1, 0, "        \n"));
    CHECK(bidigrid_document_keep_rows(&document, BIDIGRID_MAX_OPERATIONS) == BIDIGRID_OK && !shows_nothing(&document));
    CHECK(bidigrid_document_keep_rows(&document, 0) == BIDIGRID_OK && !shows_nothing(&document));
    bidigrid_document_free(&document);
}

/* A handle may move in memory. */
static void tries_moving(void)
{
    bidigrid_document document = made(1, 4), *moved = malloc(sizeof *moved);
    uint8_t out[256];
    bytes message = {out, 0};
    CHECK(moved && insert(&document, 0, "ab", &message) == BIDIGRID_OK);
    *moved = document;
    document = (bidigrid_document)BIDIGRID_NONE;
    CHECK(insert(moved, 2, "c", &message) == BIDIGRID_OK && shows(moved, 0, 0, 0, 1, 0, "abc \n"));
    bidigrid_document_free(moved);
    CHECK(!moved->held);
    free(moved);
}

/* Its tables may go first. */
static void tries_tables(void)
{
    bidigrid_tables own = BIDIGRID_NONE;
    bidigrid_document document = BIDIGRID_NONE;
    uint8_t out[256];
    bytes message = {out, 0};
    CHECK(bidigrid_tables_unicode(&own, false) == BIDIGRID_OK);
    CHECK(bidigrid_document_new(&document, &own, 1, 4, 0, 1, 2) == BIDIGRID_OK);
    bidigrid_tables_free(&own);
    CHECK(insert(&document, 0, "\u05D0b", &message) == BIDIGRID_OK && shows(&document, 0, 0, 0, 1, 0, "  b\u05D0\n"));
    bidigrid_document_free(&document);
}

/* An empty handle is a fault, all out values are written, and it stays empty. */
static void tries_empty_handles(void)
{
    bidigrid_document none = BIDIGRID_NONE;
    uint8_t out[32];
    char text[32];
    size_t size = 7;
    bidigrid_taken told = {7, 7, 7};
    bidigrid_id id = {1, 1};
    bidigrid_change change;
    bidigrid_entry entry;
    bidigrid_row row = {7, 7, 7, 7, 7};
    bidigrid_window window = {7, 7};
#define IS_EMPTY(call) (size = 7, (call) == BIDIGRID_FAULT_EMPTY_HANDLE && size == 0 && !none.held)
    CHECK(IS_EMPTY(bidigrid_document_insert(&none, 0, "a", 1, out, sizeof out, &size)));
    CHECK(IS_EMPTY(bidigrid_document_erase(&none, 0, 1, out, sizeof out, &size)));
    CHECK(IS_EMPTY(bidigrid_document_replace(&none, 0, 0, "a", 1, out, sizeof out, &size)));
    CHECK(IS_EMPTY(bidigrid_document_text(&none, text, sizeof text, &size)));
    CHECK(IS_EMPTY(bidigrid_document_file(&none, out, sizeof out, &size)));
    CHECK(IS_EMPTY(bidigrid_document_length(&none, &size)));
    CHECK(IS_EMPTY(bidigrid_document_place_of(&none, &id, &size)));
    CHECK(IS_EMPTY(bidigrid_document_changes(&none, &change, 1, &size)));
    CHECK(IS_EMPTY(bidigrid_document_entries(&none, 0, &entry, 1, &size)));
    CHECK(IS_EMPTY(bidigrid_document_entry_sizes(&none, 0, NULL, 0, &size)));
    CHECK(IS_EMPTY(bidigrid_document_print(&none, text, sizeof text, &size)));
    CHECK(IS_EMPTY(bidigrid_document_row_print(&none, 0, text, sizeof text, &size)));
    CHECK(bidigrid_document_take(&none, utf8("BGOP\x01"), 5, &told) == BIDIGRID_FAULT_EMPTY_HANDLE && !none.held);
    CHECK(told.operations == 0 && told.taken == 0 && told.frame == 0);
    CHECK(bidigrid_document_row(&none, 0, &row) == BIDIGRID_FAULT_EMPTY_HANDLE && row.entries == 0 && row.level == 0);
    CHECK(bidigrid_document_show(&none, 0, 1, 1, &window) == BIDIGRID_FAULT_EMPTY_HANDLE && !none.held);
    CHECK(window.rows == 0 && window.number == 0);
    CHECK(bidigrid_document_resize(&none, 8) == BIDIGRID_FAULT_EMPTY_HANDLE && !none.held);
    CHECK(bidigrid_document_set_base(&none, 0) == BIDIGRID_FAULT_EMPTY_HANDLE && !none.held);
    CHECK(bidigrid_document_reserve(&none, 1) == BIDIGRID_FAULT_EMPTY_HANDLE && !none.held);
    CHECK(bidigrid_document_keep_rows(&none, 1) == BIDIGRID_FAULT_EMPTY_HANDLE && !none.held);
    CHECK(bidigrid_document_id_at(&none, 0, &id) == BIDIGRID_FAULT_EMPTY_HANDLE && id.counter == 0 && id.site == 0);
    bidigrid_document_free(&none);
}

int main(void)
{
    CHECK(bidigrid_tables_unicode(&tables, false) == BIDIGRID_OK);
    tries_making();
    tries_edits();
    tries_windows();
    tries_room();
    tries_moving();
    tries_tables();
    tries_empty_handles();
    bidigrid_tables_free(&tables);
    puts("documents: as they have to be");
    return 0;
}
