/* The handles of refused.c, and all that they answer. */
#ifndef ANSWERS_H
#define ANSWERS_H

#include "check.h"

static bidigrid_tables tables = BIDIGRID_NONE;
static bidigrid_picture picture = BIDIGRID_NONE;
static bidigrid_desk desk = BIDIGRID_NONE, other = BIDIGRID_NONE;
static bidigrid_document document = BIDIGRID_NONE, met = BIDIGRID_NONE;

/* What all handles answer. */
typedef struct state {
    bytes text, file, other_file, print;
    bytes document_text, document_file, shown, whole, changes;
    size_t places;
    bool lost; /* no memory to tell changes */
} state;

static bytes changes_told(bool *lost)
{
    size_t count;
    uint32_t answer = bidigrid_document_changes(&document, NULL, 0, &count);
    *lost = answer == BIDIGRID_FAULT_MEMORY;
    bidigrid_change *changes = malloc((count + 1) * sizeof *changes);
    CHECK(changes && bidigrid_document_changes(&document, changes, count, &count) == (*lost ? answer : BIDIGRID_OK));
    return (bytes){(uint8_t *)changes, count * sizeof *changes};
}

/* What a call writes of a handle; of an empty one nothing. */
static bytes told_by(writes call, const void *handle, const void *held)
{
    return held ? written(call, handle) : copied((bytes){NULL, 0});
}

/* What a document shows is asked as it is, and then of the whole text. */
static state as_it_is(void)
{
    state now = {.text = told_by(writes_text, &desk, desk.held),
                 .file = told_by(writes_file, &desk, desk.held),
                 .other_file = told_by(writes_file, &other, other.held),
                 .print = told_by(writes_print, &picture, picture.held),
                 .document_text = told_by(writes_document_text, &document, document.held),
                 .document_file = told_by(writes_document_file, &document, document.held),
                 .shown = told_by(writes_window, &document, document.held)};
    CHECK(bidigrid_desk_length(&desk, &now.places) == (desk.held ? BIDIGRID_OK : BIDIGRID_FAULT_EMPTY_HANDLE));
    if (document.held) {
        now.changes = changes_told(&now.lost);
        CHECK(bidigrid_document_show(&document, 0, 0, BIDIGRID_MAX_WINDOW_ROWS, NULL) == BIDIGRID_OK);
    }
    now.whole = told_by(writes_window, &document, document.held);
    return now;
}

static void drop(state it)
{
    free(it.text.at);
    free(it.file.at);
    free(it.other_file.at);
    free(it.print.at);
    free(it.document_text.at);
    free(it.document_file.at);
    free(it.shown.at);
    free(it.whole.at);
    free(it.changes.at);
}

static bool is_same(bytes one, bytes same)
{
    return one.size == same.size && (!one.size || !memcmp(one.at, same.at, one.size));
}

static long all_lost = 0;

/* Where a part of a call was done before, its answer is of the rest alone. */
static bool is_state(const state *it, bool in_part)
{
    state now = as_it_is();
    bool same = is_same(now.text, it->text) && is_same(now.file, it->file) && now.places == it->places &&
                is_same(now.other_file, it->other_file) && is_same(now.print, it->print) &&
                is_same(now.document_text, it->document_text) && is_same(now.document_file, it->document_file) &&
                is_same(now.shown, it->shown) && is_same(now.whole, it->whole) &&
                (in_part || now.lost || is_same(now.changes, it->changes));
    all_lost += now.lost;
    drop(now);
    return same;
}

#endif
