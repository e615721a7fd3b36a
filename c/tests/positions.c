/* Positions of documents: where carets stand and how they move, compared with those of a picture of the whole text; and
 * wrong ones. */
#include "positions.h"

static bidigrid_tables tables = BIDIGRID_NONE;

/* Four columns wide. */
static bidigrid_document made(void)
{
    bidigrid_document document = BIDIGRID_NONE;
    CHECK(bidigrid_document_new(&document, &tables, 1, 4, BIDIGRID_BASE_AUTO, 1, 2) == BIDIGRID_OK);
    return document;
}

/* Types a text at the start. */
static uint32_t insert(bidigrid_document *document, const char *text)
{
    uint8_t message[512];
    return bidigrid_document_insert(document, 0, text, strlen(text), message, sizeof message, NULL);
}

/* The position of each place, and each move from each gap, are those of a picture of the whole text. */
static void moves_alike(bidigrid_document *document, const bidigrid_picture *picture)
{
    bidigrid_caret caret;
    bidigrid_position position;
    bidigrid_row row;
    for (size_t place = 0; bidigrid_caret_at(picture, place, &caret) == BIDIGRID_OK; place++) {
        CHECK(bidigrid_position_at(document, place, &position) == BIDIGRID_OK && is_caret(position, picture, caret));
        size_t number = caret.row;
        for (size_t column = 0; column < 6; column++) {
            CHECK(bidigrid_caret_under(picture, number, column, &caret) == BIDIGRID_OK);
            CHECK(bidigrid_position_under(document, place, column, &position) == BIDIGRID_OK);
            CHECK(is_caret(position, picture, caret));
        }
    }
    for (size_t number = 0; bidigrid_picture_row(picture, number, &row) == BIDIGRID_OK; number++)
        for (size_t gap = 0; gap <= row.entries; gap++)
            for (size_t i = 0; i < 4; i++) {
                caret = (bidigrid_caret){number, gap, 77};
                position = (bidigrid_position){row.first_place, gap, 77};
                CHECK(MOVES_DRAWN[i](picture, &caret) == BIDIGRID_OK);
                CHECK(MOVES[i](document, &position) == BIDIGRID_OK && is_caret(position, picture, caret));
            }
}

/* Where all paragraphs run from left to right, right alone comes by every gap of every row, and stays at the end. */
static void walks_right(bidigrid_document *document, const bidigrid_picture *picture)
{
    bidigrid_position position = {77, 77, 77}, last = position;
    bidigrid_row row;
    CHECK(bidigrid_position_at(document, 0, &position) == BIDIGRID_OK);
    for (size_t number = 0; bidigrid_picture_row(picture, number, &row) == BIDIGRID_OK; number++)
        for (size_t gap = 0; gap <= row.entries; gap++) {
            CHECK(position.row == row.first_place && position.gap == gap);
            last = position;
            CHECK(bidigrid_position_right(document, &position) == BIDIGRID_OK);
        }
    CHECK(is_at(position, last.row, last.gap, last.place));
}

/* Three paragraphs, of which the second is from right to left and takes two rows, and an empty one. */
static void tries_positions(void)
{
    static const char TEXT[] = "ab\n\u05D0\u05D1 cd\nef\n";
    bidigrid_document document = made();
    bidigrid_picture picture = BIDIGRID_NONE;
    bidigrid_position position;
    CHECK(insert(&document, TEXT) == BIDIGRID_OK);
    CHECK(bidigrid_position_at(&document, 3, &position) == BIDIGRID_OK && is_at(position, 3, 3, 3));
    CHECK(bidigrid_position_left(&document, &position) == BIDIGRID_OK && is_at(position, 3, 2, 4));
    CHECK(bidigrid_position_under(&document, 3, 0, &position) == BIDIGRID_OK && is_at(position, 3, 0, 6));
    CHECK(bidigrid_position_at(&document, 12, &position) == BIDIGRID_OK && is_at(position, 12, 0, 12));
    CHECK(bidigrid_position_down(&document, &position) == BIDIGRID_OK && is_at(position, 12, 0, 12));
    for (uint32_t base = 0; base < 3; base++) {
        CHECK(bidigrid_document_set_base(&document, base) == BIDIGRID_OK);
        CHECK(bidigrid_picture_new(&picture, &tables, 4, base, TEXT, strlen(TEXT)) == BIDIGRID_OK);
        moves_alike(&document, &picture);
        if (base == BIDIGRID_BASE_LEFT_TO_RIGHT)
            walks_right(&document, &picture);
    }
    /* What is shown afterwards is the row of the place that was asked for. */
    bidigrid_window window;
    CHECK(bidigrid_document_show(&document, 0, 0, 0, &window) == BIDIGRID_OK && window.rows == 1);
    bytes print = written(writes_window, &document);
    CHECK(is_text(print.at, print.size, "  ab\n"));
    free(print.at);
    bidigrid_picture_free(&picture);
    bidigrid_document_free(&document);
}

/* No such place, row or gap. */
static void tries_wrong_positions(void)
{
    static const bidigrid_position WRONG[] = {
        {1, 0, 0}, {2, 0, 0}, {4, 0, 0}, {12, 0, 0}, {SIZE_MAX, 0, 0}, {3, 4, 3}, {3, SIZE_MAX, 3}, {9, 9, 9}};
    bidigrid_document document = made(), none = BIDIGRID_NONE;
    bidigrid_position position = {7, 7, 7};
    CHECK(insert(&document, "ab\n\u05D0\u05D1 cd\nef") == BIDIGRID_OK);
    CHECK(bidigrid_position_at(&document, 12, &position) == BIDIGRID_FAULT_BAD_PLACE && is_at(position, 0, 0, 0));
    position = (bidigrid_position){7, 7, 7};
    CHECK(bidigrid_position_under(&document, SIZE_MAX, 0, &position) == BIDIGRID_FAULT_BAD_PLACE);
    CHECK(is_at(position, 0, 0, 0) && bidigrid_position_at(&document, 0, NULL) == BIDIGRID_OK);
    for (size_t i = 0; i < 4; i++) {
        for (size_t j = 0; j < sizeof WRONG / sizeof *WRONG; j++) {
            position = WRONG[j];
            CHECK(MOVES[i](&document, &position) == BIDIGRID_FAULT_BAD_CARET);
            CHECK(is_at(position, WRONG[j].row, WRONG[j].gap, WRONG[j].place));
        }
        CHECK(MOVES[i](&none, &position) == BIDIGRID_FAULT_EMPTY_HANDLE && !none.held && is_at(position, 9, 9, 9));
    }
    CHECK(bidigrid_position_at(&none, 0, &position) == BIDIGRID_FAULT_EMPTY_HANDLE && is_at(position, 0, 0, 0));
    position = (bidigrid_position){7, 7, 7};
    CHECK(bidigrid_position_under(&none, 0, 0, &position) == BIDIGRID_FAULT_EMPTY_HANDLE);
    CHECK(is_at(position, 0, 0, 0) && !none.held);
    /* After a change its row may begin elsewhere. */
    CHECK(bidigrid_position_at(&document, 3, &position) == BIDIGRID_OK && is_at(position, 3, 3, 3));
    CHECK(insert(&document, "z") == BIDIGRID_OK);
    CHECK(bidigrid_position_left(&document, &position) == BIDIGRID_FAULT_BAD_CARET && is_at(position, 3, 3, 3));
    CHECK(bidigrid_position_at(&document, 4, &position) == BIDIGRID_OK && is_at(position, 4, 3, 4));
    bidigrid_document_free(&document);
}

int main(void)
{
    CHECK(bidigrid_tables_unicode(&tables, false) == BIDIGRID_OK);
    tries_positions();
    tries_wrong_positions();
    bidigrid_tables_free(&tables);
    puts("positions: those of the whole text, and the wrong ones are told");
    return 0;
}
