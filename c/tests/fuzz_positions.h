/* The fuzzer's calls at positions of documents, which are compared with carets of a picture of the whole text. */
#ifndef FUZZ_POSITIONS_H
#define FUZZ_POSITIONS_H

#include "fuzz_documents.h"
#include "positions.h"

/* The position of a place, or of a column in the row of a place, and the picture's caret there. */
static bidigrid_position stands(live *it, const bidigrid_picture *drawn, size_t place, size_t column, bool at_place,
                                bidigrid_caret *caret)
{
    bidigrid_position position;
    CHECK(bidigrid_caret_at(drawn, place, caret) == BIDIGRID_OK);
    if (at_place)
        CHECK(bidigrid_position_at(&it->document, place, &position) == BIDIGRID_OK);
    else {
        CHECK(bidigrid_caret_under(drawn, caret->row, column, caret) == BIDIGRID_OK);
        CHECK(bidigrid_position_under(&it->document, place, column, &position) == BIDIGRID_OK);
    }
    CHECK(is_caret(position, drawn, *caret));
    return position;
}

/* No such place, or an empty handle: zeros are written. */
static void stands_nowhere(live *it, bool at_place)
{
    bidigrid_position position = {7, 7, 7};
    size_t place = it->text.count + 1;
    uint32_t wanted = it->document.held ? BIDIGRID_FAULT_BAD_PLACE : BIDIGRID_FAULT_EMPTY_HANDLE;
    CHECK((at_place ? bidigrid_position_at(&it->document, place, &position)
                    : bidigrid_position_under(&it->document, place, 0, &position)) == wanted);
    CHECK(is_at(position, 0, 0, 0));
}

/* Moves a position that may be none of the document's: then it stays, and else it is moved as the picture's caret is. */
static void moves_any(live *it, const bidigrid_picture *drawn, size_t move, bidigrid_position any)
{
    bidigrid_position moved = any;
    bidigrid_caret caret;
    bidigrid_row row;
    uint32_t answer = MOVES[move](&it->document, &moved);
    bool begins = bidigrid_caret_at(drawn, any.row, &caret) == BIDIGRID_OK &&
                  bidigrid_picture_row(drawn, caret.row, &row) == BIDIGRID_OK && row.first_place == any.row &&
                  any.gap <= row.entries;
    CHECK(answer == (begins ? BIDIGRID_OK : BIDIGRID_FAULT_BAD_CARET));
    if (!begins) {
        CHECK(is_at(moved, any.row, any.gap, any.place));
        return;
    }
    caret = (bidigrid_caret){caret.row, any.gap, any.place};
    CHECK(MOVES_DRAWN[move](drawn, &caret) == BIDIGRID_OK && is_caret(moved, drawn, caret));
}

/* A caret is found, and goes right and left, up and down, as one does in a picture of the whole text. */
static void document_walks(input *from, const bidigrid_tables *tables)
{
    live *it = some_live(from);
    bool at_place = next(from) & 1;
    bidigrid_position any = {next_number(from), next(from), next(from)};
    stands_nowhere(it, at_place);
    if (!it->document.held) {
        CHECK(MOVES[any.gap % 4](&it->document, &any) == BIDIGRID_FAULT_EMPTY_HANDLE);
        return;
    }
    bidigrid_picture drawn = BIDIGRID_NONE;
    bidigrid_caret caret;
    bytes text = written(writes_document_text, &it->document);
    CHECK(bidigrid_picture_new(&drawn, tables, it->width, it->base, chars(text), text.size) == BIDIGRID_OK);
    size_t place = next_number(from) % (it->text.count + 1), column = next(from);
    bidigrid_position position = stands(it, &drawn, place, column, at_place, &caret);
    for (uint8_t steps = next(from) % 32; steps > 0; steps--) {
        size_t move = next(from) % 4;
        CHECK(MOVES[move](&it->document, &position) == BIDIGRID_OK);
        CHECK(MOVES_DRAWN[move](&drawn, &caret) == BIDIGRID_OK && is_caret(position, &drawn, caret));
    }
    moves_any(it, &drawn, next(from) % 4, any);
    bidigrid_picture_free(&drawn);
    free(text.at);
}

#endif
