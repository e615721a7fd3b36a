/* The calls of refused.c that take memory, and what is made before each of them. */
#ifndef REFUSED_CALLS_H
#define REFUSED_CALLS_H

#include "answers.h"

/* How many operations the larger desks have: some blocks, of 512 elements at most; and from how many characters on one
 * is typed into them, before the first block is full. */
#define MANY 700
#define FEW 500

static uint8_t out[BIDIGRID_REPLACED_SIZE(MANY, MANY)];
static size_t size;

/* Texts of as many characters at random, and messages of desks that typed them here and there. */
static bytes text[2], message[2];

/* The calls. */

static uint32_t makes_tables(void)
{
    return bidigrid_tables_unicode(&tables, false);
}

static uint32_t reads_tables(void)
{
    static const bidigrid_bytes FILES[BIDIGRID_DATA_FILES] = {
        {"0041;L\n", 7}, {NULL, 0}, {NULL, 0}, {"0041;AL\n", 8}, {NULL, 0}};
    return bidigrid_tables_new(&tables, FILES, false, NULL);
}

static uint32_t draws(void)
{
    return bidigrid_picture_new(&picture, &tables, 12, BIDIGRID_BASE_AUTO, chars(text[0]), text[0].size);
}

static uint32_t prints(void)
{
    return bidigrid_picture_print(&picture, (char *)out, sizeof out, &size);
}

static uint32_t prints_a_row(void)
{
    return bidigrid_picture_row_print(&picture, 1, (char *)out, sizeof out, &size);
}

static uint32_t makes_a_desk(void)
{
    return bidigrid_desk_new(&desk, 1, 2, 3);
}

static uint32_t types(void)
{
    return bidigrid_desk_type(&desk, 0, 'a', out, sizeof out, &size);
}

static uint32_t types_inside(void)
{
    size_t places;
    return bidigrid_desk_length(&desk, &places) ? BIDIGRID_FAULT_EMPTY_HANDLE
                                                : bidigrid_desk_type(&desk, places / 3, 'a', out, sizeof out, &size);
}

static uint32_t erases(void)
{
    return bidigrid_desk_erase(&desk, 0, 1, out, sizeof out, &size);
}

static uint32_t erases_many(void)
{
    return bidigrid_desk_erase(&desk, 3, MANY - 3, out, sizeof out, &size);
}

static uint32_t inserts_one(void)
{
    return bidigrid_desk_insert(&desk, 7, "\u05D0", 2, out, sizeof out, &size);
}

static uint32_t inserts_many(void)
{
    return bidigrid_desk_insert(&desk, 7, chars(text[1]), text[1].size, out, sizeof out, &size);
}

static uint32_t replaces_many(void)
{
    return bidigrid_desk_replace(&desk, 1, MANY / 2, chars(text[1]), text[1].size, out, sizeof out, &size);
}

static uint32_t takes(void)
{
    return bidigrid_desk_take(&desk, message[1].at, message[1].size, NULL);
}

static uint32_t opens(void)
{
    return bidigrid_desk_open(&desk, 3, 2, 3, message[0].at, message[0].size, NULL);
}

static uint32_t reserves(void)
{
    return bidigrid_desk_reserve(&desk, 5 * MANY);
}

static uint32_t merges(void)
{
    return bidigrid_desk_merge(&desk, &other);
}

static uint32_t reads(void)
{
    return bidigrid_desk_text(&desk, (char *)out, sizeof out, &size);
}

static uint32_t saves(void)
{
    return bidigrid_desk_file(&desk, out, sizeof out, &size);
}

static uint32_t makes_a_document(void)
{
    return bidigrid_document_new(&document, &tables, 1, 20, BIDIGRID_BASE_AUTO, 2, 3);
}

static uint32_t opens_a_document(void)
{
    return bidigrid_document_open(&document, &tables, 3, 20, BIDIGRID_BASE_AUTO, 2, 3, message[0].at, message[0].size,
                                  NULL);
}

static uint32_t document_inserts(void)
{
    return bidigrid_document_insert(&document, 7, chars(text[1]), text[1].size, out, sizeof out, &size);
}

static uint32_t document_types(void)
{
    return bidigrid_document_insert(&document, 7, "\u05D0", 2, out, sizeof out, &size);
}

static uint32_t document_erases_one(void)
{
    return bidigrid_document_erase(&document, 7, 8, out, sizeof out, &size);
}

static uint32_t document_erases(void)
{
    return bidigrid_document_erase(&document, 3, MANY - 3, out, sizeof out, &size);
}

static uint32_t document_replaces(void)
{
    return bidigrid_document_replace(&document, 1, MANY / 2, chars(text[1]), text[1].size, out, sizeof out, &size);
}

static uint32_t document_takes(void)
{
    return bidigrid_document_take(&document, message[1].at, message[1].size, NULL);
}

static uint32_t document_meets(void)
{
    return bidigrid_document_merge(&document, &met);
}

static uint32_t document_reserves(void)
{
    return bidigrid_document_reserve(&document, 5 * MANY);
}

static uint32_t document_shows(void)
{
    return bidigrid_document_show(&document, 0, 0, BIDIGRID_MAX_WINDOW_ROWS, NULL);
}

static uint32_t document_finds_a_place(void)
{
    bidigrid_position position;
    return bidigrid_position_at(&document, MANY / 2, &position);
}

static uint32_t document_points(void)
{
    bidigrid_position position;
    return bidigrid_position_under(&document, MANY / 2, 7, &position);
}

/* A position that isn't moved stays as it was. */
static uint32_t document_moves(void)
{
    bidigrid_position position = {0, 0, 77};
    uint32_t answer = bidigrid_position_down(&document, &position);
    CHECK(answer == BIDIGRID_OK || (position.row == 0 && position.gap == 0 && position.place == 77));
    return answer;
}

static uint32_t document_prints(void)
{
    return bidigrid_document_print(&document, (char *)out, sizeof out, &size);
}

static uint32_t document_prints_a_row(void)
{
    return bidigrid_document_row_print(&document, 1, (char *)out, sizeof out, &size);
}

static uint32_t document_reads(void)
{
    return bidigrid_document_text(&document, (char *)out, sizeof out, &size);
}

static uint32_t document_saves(void)
{
    return bidigrid_document_file(&document, out, sizeof out, &size);
}

/* How many bytes a call has to write, asked for without room: 0 where there is no memory to tell. */
static uint32_t asked(uint32_t answer)
{
    CHECK(answer == BIDIGRID_FAULT_MEMORY ? size == 0 : answer == BIDIGRID_FAULT_SHORT_BUFFER && size > 0);
    return answer == BIDIGRID_FAULT_SHORT_BUFFER ? BIDIGRID_OK : answer;
}

static uint32_t asks_for_a_text(void)
{
    return asked(bidigrid_desk_text(&desk, NULL, 0, &size));
}

static uint32_t asks_for_a_file(void)
{
    return asked(bidigrid_desk_file(&desk, NULL, 0, &size));
}

static uint32_t document_asks_for_a_text(void)
{
    return asked(bidigrid_document_text(&document, NULL, 0, &size));
}

static uint32_t document_asks_for_a_file(void)
{
    return asked(bidigrid_document_file(&document, NULL, 0, &size));
}

/* What is made before each try. */

static void nothing(void)
{
}

static void a_fresh_desk(void)
{
    CHECK(bidigrid_desk_new(&desk, 1, 2, 3) == BIDIGRID_OK);
}

static void a_small_picture(void)
{
    CHECK(bidigrid_picture_new(&picture, &tables, 4, BIDIGRID_BASE_AUTO, "x", 1) == BIDIGRID_OK);
}

static void a_large_desk(void)
{
    bidigrid_taken told;
    a_fresh_desk();
    CHECK(bidigrid_desk_take(&desk, message[0].at, message[0].size, &told) == BIDIGRID_OK && told.taken == MANY);
}

static void two_large_desks(void)
{
    bidigrid_taken told;
    a_large_desk();
    CHECK(bidigrid_desk_new(&other, 2, 0, 0) == BIDIGRID_OK);
    CHECK(bidigrid_desk_take(&other, message[1].at, message[1].size, &told) == BIDIGRID_OK);
}

/* A document that shows nothing, and tells what it took. */
static void a_large_document(void)
{
    bidigrid_taken told;
    bidigrid_desk_free(&desk);
    bidigrid_desk_free(&other);
    CHECK(makes_a_document() == BIDIGRID_OK);
    CHECK(bidigrid_document_take(&document, message[0].at, message[0].size, &told) == BIDIGRID_OK && told.taken == MANY);
}

static void a_shown_document(void)
{
    a_large_document();
    CHECK(document_shows() == BIDIGRID_OK);
}

static void two_large_documents(void)
{
    a_shown_document();
    CHECK(bidigrid_document_open(&met, &tables, 2, 9, 0, 0, 0, message[1].at, message[1].size, NULL) == BIDIGRID_OK);
}

static size_t characters;

/* A desk with so many characters, of which each other one was typed in front of the last. */
static void a_desk_of_characters(void)
{
    a_fresh_desk();
    for (size_t number = 0; number < characters; number++)
        CHECK(bidigrid_desk_type(&desk, number / 2, 'b', out, sizeof out, &size) == BIDIGRID_OK);
}

#endif
