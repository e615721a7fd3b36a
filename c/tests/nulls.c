/* NULL in place of each handle that isn't to be filled, in each call: it counts as an empty one. */
#include "check.h"

#define IS_EMPTY(call) CHECK((call) == BIDIGRID_FAULT_EMPTY_HANDLE)

/* Calls that write a number, which is 0 then. */
#define IS_EMPTY_AND_ZERO(call) CHECK((size = 7, (call) == BIDIGRID_FAULT_EMPTY_HANDLE && size == 0))

static uint8_t out[64];
static char text[64];
static size_t size;
static bidigrid_row row;
static bidigrid_taken told;
static bidigrid_id id;

static void tries_pictures(void)
{
    bidigrid_picture picture = BIDIGRID_NONE;
    bidigrid_entry entry = {7, 7, 7, 7, 7, 7, 7};
    bidigrid_caret caret = {7, 7, 7};
    bidigrid_tables_free(NULL);
    bidigrid_picture_free(NULL);
    IS_EMPTY(bidigrid_picture_new(&picture, NULL, 8, 0, "a", 1));
    CHECK(!picture.held);
    IS_EMPTY_AND_ZERO(bidigrid_picture_rows(NULL, &size));
    IS_EMPTY(bidigrid_picture_row(NULL, 0, &row));
    IS_EMPTY(bidigrid_picture_entry(NULL, 0, 0, &entry));
    CHECK(entry.end_byte == 0 && entry.columns == 0);
    IS_EMPTY_AND_ZERO(bidigrid_picture_entries(NULL, 0, &entry, 1, &size));
    IS_EMPTY_AND_ZERO(bidigrid_picture_row_print(NULL, 0, text, sizeof text, &size));
    IS_EMPTY_AND_ZERO(bidigrid_picture_print(NULL, NULL, 0, &size));
    IS_EMPTY_AND_ZERO(bidigrid_picture_entry_sizes(NULL, 0, NULL, 0, &size));
    IS_EMPTY(bidigrid_caret_at(NULL, 0, &caret));
    CHECK(caret.row == 0 && caret.gap == 0 && caret.place == 0);
    IS_EMPTY(bidigrid_caret_under(NULL, 0, 0, NULL));
    IS_EMPTY(bidigrid_caret_right(NULL, &caret));
    IS_EMPTY(bidigrid_caret_left(NULL, &caret));
    IS_EMPTY(bidigrid_caret_up(NULL, &caret));
    IS_EMPTY(bidigrid_caret_down(NULL, &caret));
}

static void tries_making_documents(void)
{
    bidigrid_document document = BIDIGRID_NONE;
    IS_EMPTY(bidigrid_document_new(&document, NULL, 1, 8, 0, 1, 2));
    told = (bidigrid_taken){7, 7, 7};
    IS_EMPTY(bidigrid_document_open(&document, NULL, 1, 8, 0, 1, 2, utf8("BGOP\x01"), 5, &told));
    CHECK(!document.held && told.operations == 0 && told.taken == 0 && told.frame == 0);
    bidigrid_document_free(NULL);
}

static void tries_documents(void)
{
    bidigrid_change change;
    bidigrid_entry entry;
    bidigrid_window window = {7, 7};
    bidigrid_position position = {7, 7, 7};
    IS_EMPTY(bidigrid_document_resize(NULL, 8));
    IS_EMPTY(bidigrid_document_set_base(NULL, 0));
    IS_EMPTY(bidigrid_document_keep_rows(NULL, 1));
    IS_EMPTY_AND_ZERO(bidigrid_document_insert(NULL, 0, "a", 1, out, sizeof out, &size));
    IS_EMPTY_AND_ZERO(bidigrid_document_erase(NULL, 0, 1, out, sizeof out, &size));
    IS_EMPTY_AND_ZERO(bidigrid_document_replace(NULL, 0, 0, "a", 1, out, sizeof out, &size));
    IS_EMPTY(bidigrid_document_take(NULL, utf8("BGOP\x01"), 5, NULL));
    IS_EMPTY_AND_ZERO(bidigrid_document_changes(NULL, &change, 1, &size));
    IS_EMPTY(bidigrid_document_reserve(NULL, 1));
    IS_EMPTY_AND_ZERO(bidigrid_document_text(NULL, text, sizeof text, &size));
    IS_EMPTY_AND_ZERO(bidigrid_document_length(NULL, &size));
    IS_EMPTY_AND_ZERO(bidigrid_document_file(NULL, out, sizeof out, &size));
    id = (bidigrid_id){1, 1};
    IS_EMPTY_AND_ZERO(bidigrid_document_place_of(NULL, &id, &size));
    IS_EMPTY(bidigrid_document_id_at(NULL, 0, &id));
    IS_EMPTY(bidigrid_document_show(NULL, 0, 1, 1, &window));
    CHECK(id.counter == 0 && id.site == 0 && window.rows == 0 && window.number == 0);
    IS_EMPTY(bidigrid_document_row(NULL, 0, &row));
    IS_EMPTY_AND_ZERO(bidigrid_document_entries(NULL, 0, &entry, 1, &size));
    IS_EMPTY_AND_ZERO(bidigrid_document_entry_sizes(NULL, 0, NULL, 0, &size));
    IS_EMPTY_AND_ZERO(bidigrid_document_row_print(NULL, 0, text, sizeof text, &size));
    IS_EMPTY_AND_ZERO(bidigrid_document_print(NULL, text, sizeof text, &size));
    IS_EMPTY(bidigrid_position_at(NULL, 0, &position));
    CHECK(position.row == 0 && position.gap == 0 && position.place == 0);
    IS_EMPTY(bidigrid_position_under(NULL, 0, 0, NULL));
    IS_EMPTY(bidigrid_position_right(NULL, &position));
    IS_EMPTY(bidigrid_position_left(NULL, &position));
    IS_EMPTY(bidigrid_position_up(NULL, &position));
    IS_EMPTY(bidigrid_position_down(NULL, &position));
}

static void tries_desks(void)
{
    bidigrid_desk_free(NULL);
    IS_EMPTY_AND_ZERO(bidigrid_desk_type(NULL, 0, 'a', out, sizeof out, &size));
    IS_EMPTY_AND_ZERO(bidigrid_desk_insert(NULL, 0, "a", 1, out, sizeof out, &size));
    IS_EMPTY_AND_ZERO(bidigrid_desk_erase(NULL, 0, 1, out, sizeof out, &size));
    IS_EMPTY_AND_ZERO(bidigrid_desk_replace(NULL, 0, 0, "a", 1, out, sizeof out, &size));
    IS_EMPTY(bidigrid_desk_take(NULL, NULL, 0, &told));
    IS_EMPTY(bidigrid_desk_reserve(NULL, 1));
    IS_EMPTY_AND_ZERO(bidigrid_desk_text(NULL, text, sizeof text, &size));
    IS_EMPTY_AND_ZERO(bidigrid_desk_length(NULL, &size));
    IS_EMPTY_AND_ZERO(bidigrid_desk_file(NULL, out, sizeof out, &size));
    IS_EMPTY(bidigrid_desk_id_at(NULL, 0, &id));
    id = (bidigrid_id){1, 1};
    IS_EMPTY_AND_ZERO(bidigrid_desk_place_of(NULL, &id, &size));
}

/* NULL and another one, and NULL twice. */
static void tries_merging(void)
{
    bidigrid_desk desk = BIDIGRID_NONE;
    bidigrid_document document = BIDIGRID_NONE;
    bidigrid_tables tables = BIDIGRID_NONE;
    CHECK(bidigrid_tables_unicode(&tables, false) == BIDIGRID_OK);
    CHECK(bidigrid_desk_new(&desk, 1, 2, 3) == BIDIGRID_OK);
    CHECK(bidigrid_document_new(&document, &tables, 1, 8, 0, 2, 3) == BIDIGRID_OK);
    IS_EMPTY(bidigrid_desk_merge(&desk, NULL));
    IS_EMPTY(bidigrid_desk_merge(NULL, &desk));
    IS_EMPTY(bidigrid_desk_merge(NULL, NULL));
    IS_EMPTY(bidigrid_document_merge(&document, NULL));
    IS_EMPTY(bidigrid_document_merge(NULL, &document));
    IS_EMPTY(bidigrid_document_merge(NULL, NULL));
    CHECK(bidigrid_desk_length(&desk, &size) == BIDIGRID_OK && bidigrid_document_length(&document, &size) == BIDIGRID_OK);
    bidigrid_document_free(&document);
    bidigrid_desk_free(&desk);
    bidigrid_tables_free(&tables);
}

int main(void)
{
    tries_pictures();
    tries_making_documents();
    tries_documents();
    tries_desks();
    tries_merging();
    puts("nulls: NULL is an empty handle");
    return 0;
}
