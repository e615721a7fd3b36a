/* Two tests' documents: how they are made and edited, and whether they have a text, show rows and tell changes. */
#ifndef DOCUMENTS_H
#define DOCUMENTS_H

#include "check.h"

static bidigrid_tables tables = BIDIGRID_NONE;

static inline bidigrid_document made(uint32_t site, uint32_t width)
{
    bidigrid_document document = BIDIGRID_NONE;
    CHECK(bidigrid_document_new(&document, &tables, site, width, BIDIGRID_BASE_AUTO, 0x0123456789ABCDEF, site) ==
          BIDIGRID_OK);
    return document;
}

/* Makes a document anew, or answers why not. */
static inline uint32_t make(bidigrid_document *out, const bidigrid_tables *by, uint32_t site, uint32_t width, uint32_t base)
{
    return bidigrid_document_new(out, by, site, width, base, 1, 2);
}

static inline bool has_text(const bidigrid_document *document, const char *text)
{
    char out[64];
    size_t size = 0, places = 0, wanted = 0;
    CHECK(bidigrid_document_text(document, out, sizeof out, &size) == BIDIGRID_OK);
    CHECK(bidigrid_document_length(document, &places) == BIDIGRID_OK);
    for (const char *at = text; *at; at++)
        wanted += ((unsigned char)*at & 0xC0) != 0x80;
    return is_text(out, size, text) && places == wanted;
}

static inline uint32_t replace(bidigrid_document *document, size_t from, size_t to, const char *text, bytes *message)
{
    return bidigrid_document_replace(document, from, to, text, strlen(text), message->at, 256, &message->size);
}

static inline uint32_t insert(bidigrid_document *document, size_t place, const char *text, bytes *message)
{
    return bidigrid_document_insert(document, place, text, strlen(text), message->at, 256, &message->size);
}

/* Whether the window round a place has so many rows, of which this is the place's, and this print. */
static inline bool shows(bidigrid_document *document, size_t place, size_t above, size_t below, size_t rows, size_t number,
                  const char *print)
{
    bidigrid_window window = {77, 77};
    char out[256];
    size_t size;
    CHECK(bidigrid_document_show(document, place, above, below, &window) == BIDIGRID_OK);
    CHECK(bidigrid_document_print(document, out, sizeof out, &size) == BIDIGRID_OK);
    return window.rows == rows && window.number == number && is_text(out, size, print);
}

static inline bool shows_nothing(const bidigrid_document *document)
{
    bidigrid_row row;
    size_t size = 77;
    uint32_t answer = bidigrid_document_print(document, NULL, 0, &size);
    CHECK(answer == (size ? BIDIGRID_FAULT_SHORT_BUFFER : BIDIGRID_OK));
    return size == 0 && bidigrid_document_row(document, 0, &row) == BIDIGRID_FAULT_BAD_ROW;
}

/* What a document tells of its last edit, take or merge: '+' and the character where one was put, '-' where one was cut, each
 * with its place. */
static inline bool tells(const bidigrid_document *document, const char *wanted)
{
    bidigrid_change changes[16];
    char out[256] = "";
    size_t count = 77, at = 0;
    CHECK(bidigrid_document_changes(document, changes, 16, &count) == BIDIGRID_OK);
    for (size_t i = 0; i < count; i++) {
        CHECK(changes[i].put ? changes[i].put == 1 && changes[i].character : !changes[i].character);
        at += (size_t)snprintf(out + at, sizeof out - at, changes[i].put ? "%u+%c " : "%u- ",
                               (unsigned)changes[i].place, (char)changes[i].character);
    }
    return !strcmp(out, wanted);
}

#endif
