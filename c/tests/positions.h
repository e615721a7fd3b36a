/* The moves of a document's positions and of a picture's carets, and whether the two are alike. */
#ifndef POSITIONS_H
#define POSITIONS_H

#include "check.h"

typedef uint32_t (*moves_position)(bidigrid_document *document, bidigrid_position *position);
typedef uint32_t (*moves_caret)(const bidigrid_picture *picture, bidigrid_caret *caret);

static const moves_position MOVES[] = {bidigrid_position_right, bidigrid_position_left, bidigrid_position_up,
                                       bidigrid_position_down};
static const moves_caret MOVES_DRAWN[] = {bidigrid_caret_right, bidigrid_caret_left, bidigrid_caret_up,
                                          bidigrid_caret_down};

static inline bool is_at(bidigrid_position position, size_t row, size_t gap, size_t place)
{
    return position.row == row && position.gap == gap && position.place == place;
}

/* Whether a position is that of a picture's caret, whose row is named by its first place. */
static inline bool is_caret(bidigrid_position position, const bidigrid_picture *picture, bidigrid_caret caret)
{
    bidigrid_row row;
    CHECK(bidigrid_picture_row(picture, caret.row, &row) == BIDIGRID_OK);
    return is_at(position, row.first_place, caret.gap, caret.place);
}

#endif
