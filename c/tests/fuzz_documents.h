/* The fuzzer's calls at two documents. A plain list follows each by what it tells, and what it shows is compared with a
 * picture of its text. */
#ifndef FUZZ_DOCUMENTS_H
#define FUZZ_DOCUMENTS_H

#include "follow.h"
#include "frames.h"

typedef struct live {
    bidigrid_document document;
    followed text;
    uint32_t width, base;
} live;

static live lives[2];

/* One of the two, which may be empty. */
static live *some_live(input *from)
{
    return &lives[next(from) & 1];
}

static live *other_live(const live *it)
{
    return it == &lives[0] ? &lives[1] : &lives[0];
}

static void free_live(live *it)
{
    bidigrid_document_free(&it->document);
    free(it->text.characters);
    it->text = (followed){NULL, 0, 0};
}

static void fresh_live(live *it, const bidigrid_tables *tables, uint32_t site)
{
    it->width = 20;
    it->base = BIDIGRID_BASE_AUTO;
    it->text.count = 0;
    CHECK(bidigrid_document_new(&it->document, tables, site, it->width, it->base, 1, 2) == BIDIGRID_OK);
}

/* What a document answers to one that it takes from, or to a message. Its list follows, and has its text then. */
static void has_heard(live *it, uint32_t answer)
{
    CHECK(answer == BIDIGRID_OK || answer == BIDIGRID_FAULT_IDENTIFIER_REUSED || answer == BIDIGRID_FAULT_FULL);
    hear(&it->text, &it->document);
    CHECK(is_followed(&it->text, &it->document));
}

static void document_takes(input *from)
{
    bidigrid_taken told;
    live *it = some_live(from);
    made message = make_message(from);
    uint32_t answer = bidigrid_document_take(&it->document, message.bytes.at, message.bytes.size, &told);
    if (!it->document.held)
        CHECK(answer == BIDIGRID_FAULT_EMPTY_HANDLE);
    else if (message.fault) {
        CHECK(answer == message.fault && told.frame == message.frame && told.operations == 0 && told.taken == 0);
        CHECK(hear(&it->text, &it->document) == 0);
    } else {
        CHECK(told.operations == message.operations && (told.taken == told.operations) == !answer);
        has_heard(it, answer);
    }
    free(message.bytes.at);
}

/* The message of an edit does at the other document what it did here, where that one has all else. */
static void document_sends(live *it, bytes message)
{
    live *other = other_live(it);
    if (other->document.held)
        has_heard(other, bidigrid_document_take(&other->document, message.at, message.size, NULL));
}

static uint32_t document_replaces(live *it, size_t first, size_t last, bytes text, bytes *message)
{
    bidigrid_document *document = &it->document;
    if (!text.size)
        return bidigrid_document_erase(document, first, last, message->at, message->size, &message->size);
    if (first == last)
        return bidigrid_document_insert(document, first, chars(text), text.size, message->at, message->size,
                                        &message->size);
    return bidigrid_document_replace(document, first, last, chars(text), text.size, message->at, message->size,
                                     &message->size);
}

/* Does to the list what the document did itself, and returns how many changes that is. */
static size_t splice(followed *it, size_t first, size_t last, bytes text)
{
    size_t changes = last - first;
    for (size_t gone = first; gone < last; gone++)
        cut_at(it, first);
    for (size_t at = 0; at < text.size; first++, changes++) {
        uint32_t character = text.at[at];
        int more = character < 0x80 ? 0 : character < 0xE0 ? 1 : character < 0xF0 ? 2 : 3;
        character &= more ? 0x3Fu >> more : 0x7Fu;
        for (at++; more > 0; more--)
            character = character << 6 | (text.at[at++] & 0x3Fu);
        put_at(it, first, character);
    }
    return changes;
}

/* A range is erased or replaced, or a text typed, with a buffer that is as long as it has to be. */
static void document_edits(input *from)
{
    live *it = some_live(from);
    bytes text = next(from) % 4 ? make_text(from) : (bytes){malloc(1), 0}, message = {NULL, 0};
    size_t first = next_number(from) % (it->text.count + 1), last = first + next(from) % 8;
    uint32_t answer = document_replaces(it, first, last, text, &message);
    if (answer == BIDIGRID_FAULT_SHORT_BUFFER) {
        message.at = malloc(message.size);
        CHECK(message.at);
        answer = document_replaces(it, first, last, text, &message);
    }
    if (answer == BIDIGRID_OK) {
        size_t told;
        bidigrid_document_changes(&it->document, NULL, 0, &told);
        CHECK(told == splice(&it->text, first, last, text));
        CHECK(is_followed(&it->text, &it->document));
        document_sends(it, message);
    } else
        CHECK(!it->document.held        ? answer == BIDIGRID_FAULT_EMPTY_HANDLE
              : answer == BIDIGRID_FAULT_BAD_PLACE ? last > it->text.count
                                                   : answer == BIDIGRID_FAULT_NOT_UTF8 || answer == BIDIGRID_FAULT_FULL ||
                                                         answer == BIDIGRID_FAULT_COUNTER_SPENT);
    free(message.at);
    free(text.at);
}

static void document_shows(input *from, const bidigrid_tables *tables)
{
    live *it = some_live(from);
    bidigrid_window window;
    size_t place = next_number(from), above = next_number(from) % 1003, below_it = next_number(from) % 1003;
    uint32_t answer = bidigrid_document_show(&it->document, place, above, below_it, &window);
    CHECK(answer == (!it->document.held                                       ? BIDIGRID_FAULT_EMPTY_HANDLE
                     : above > BIDIGRID_MAX_WINDOW_ROWS || below_it > BIDIGRID_MAX_WINDOW_ROWS ? BIDIGRID_FAULT_BAD_ROW
                     : place > it->text.count                                 ? BIDIGRID_FAULT_BAD_PLACE
                                                                              : BIDIGRID_OK));
    CHECK(answer == BIDIGRID_OK ? window.number < window.rows && window.rows <= above + below_it + 1
                                : window.rows == 0 && window.number == 0);
    seed_random(next_number(from));
    if (it->document.held)
        shows_its_rows(&it->document, tables, it->width, it->base);
}

static void document_turns(input *from)
{
    live *it = some_live(from);
    uint32_t width = next(from) % 8 ? 2 + next(from) % 60u : next_number(from) * (1 + next(from) * 256u) % 65539;
    uint32_t base = next(from) % 8 ? next(from) % 3u : next_number(from);
    bool is_width = width >= BIDIGRID_MIN_WIDTH && width <= BIDIGRID_MAX_WIDTH, held = it->document.held;
    uint32_t answer = bidigrid_document_resize(&it->document, width);
    CHECK(answer == (!held ? BIDIGRID_FAULT_EMPTY_HANDLE : is_width ? BIDIGRID_OK : BIDIGRID_FAULT_BAD_WIDTH));
    it->width = answer == BIDIGRID_OK ? width : it->width;
    answer = bidigrid_document_set_base(&it->document, base);
    CHECK(answer == (!held ? BIDIGRID_FAULT_EMPTY_HANDLE : base < 3 ? BIDIGRID_OK : BIDIGRID_FAULT_BAD_BASE));
    it->base = answer == BIDIGRID_OK ? base : it->base;
    size_t rows = next_number(from);
    answer = bidigrid_document_keep_rows(&it->document, rows);
    bool can_be_kept = rows <= BIDIGRID_MAX_OPERATIONS;
    CHECK(answer == (!held ? BIDIGRID_FAULT_EMPTY_HANDLE : can_be_kept ? BIDIGRID_OK : BIDIGRID_FAULT_TOO_MANY));
}

/* Two documents that have met have one text, and save a file that makes a new one the same. */
static void documents_meet(input *from, const bidigrid_tables *tables)
{
    live *it = some_live(from), *other = other_live(it), newcomer = {BIDIGRID_NONE, {NULL, 0, 0}, 30, 1};
    uint32_t answer = bidigrid_document_merge(&it->document, &it->document);
    CHECK(answer == (it->document.held ? BIDIGRID_OK : BIDIGRID_FAULT_EMPTY_HANDLE));
    answer = bidigrid_document_merge(&it->document, &other->document);
    if (!it->document.held || !other->document.held) {
        CHECK(answer == BIDIGRID_FAULT_EMPTY_HANDLE);
        return;
    }
    has_heard(it, answer);
    answer = bidigrid_document_merge(&other->document, &it->document);
    has_heard(other, answer);
    if (answer == BIDIGRID_OK)
        CHECK(is_followed(&it->text, &other->document));
    bytes saved = written(writes_document_file, &it->document);
    CHECK(bidigrid_document_open(&newcomer.document, tables, 9, 30, 1, 1, 2, saved.at, saved.size, NULL) == BIDIGRID_OK);
    CHECK(is_followed(&it->text, &newcomer.document));
    free(saved.at);
    free_live(&newcomer);
}

/* An identifier leads to its place. */
static void document_asks(input *from)
{
    live *it = some_live(from);
    bidigrid_id id, any = {next_number(from), next(from)};
    size_t place = next_number(from) % (it->text.count + 1), found;
    bidigrid_document_place_of(&it->document, &any, &found);
    uint32_t answer = bidigrid_document_id_at(&it->document, place, &id);
    CHECK(answer == (!it->document.held         ? BIDIGRID_FAULT_EMPTY_HANDLE
                     : place < it->text.count ? BIDIGRID_OK
                                              : BIDIGRID_FAULT_BAD_PLACE));
    if (answer == BIDIGRID_OK)
        CHECK(bidigrid_document_place_of(&it->document, &id, &found) == BIDIGRID_OK && found == place);
    size_t operations = next(from) ? next_number(from) : BIDIGRID_MAX_OPERATIONS + 1;
    CHECK(bidigrid_document_reserve(&it->document, operations) ==
          (!it->document.held                       ? BIDIGRID_FAULT_EMPTY_HANDLE
           : operations > BIDIGRID_MAX_OPERATIONS ? BIDIGRID_FAULT_TOO_MANY
                                                  : BIDIGRID_OK));
}

#endif
