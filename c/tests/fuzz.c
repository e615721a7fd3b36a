/* Calls in any order (libFuzzer). The fuzzer's bytes choose calls, numbers and bytes; messages and texts are also made
 * by them (frames.h): messages that are sound, or sound but for one thing, of which the fault is known, and texts in
 * UTF-8 of up to 100,000 bytes. Each edit is compared with what a list of bytes says, desks that have met with each
 * other, pictures with their rows and entries, and documents with lists that follow them and with pictures of their
 * texts, by which their carets go too. */
#include "fuzz_desks.h"
#include "fuzz_documents.h"
#include "fuzz_pictures.h"
#include "fuzz_positions.h"

/* Names of faults, the version, and what frees. */
static void ends(input *from)
{
    size_t length = strlen(bidigrid_fault_name(next_number(from)));
    CHECK(length > 0 && length < 32);
    CHECK(bidigrid_version() == BIDIGRID_VERSION);
    uint8_t which = next(from) % 8;
    bidigrid_document_free(NULL);
    bidigrid_desk_free(NULL);
    bidigrid_picture_free(NULL);
    bidigrid_tables_free(NULL);
    if (which == 0)
        bidigrid_desk_free(some_desk(from));
    else if (which == 1)
        bidigrid_picture_free(&picture);
    else if (which == 2)
        bidigrid_tables_free(&read_tables);
    else if (which == 3)
        free_live(some_live(from));
}

static void shows(input *from)
{
    document_shows(from, &tables);
}

static void documents_have_met(input *from)
{
    documents_meet(from, &tables);
}

static void positions_move(input *from)
{
    document_walks(from, &tables);
}

static void makes_a_document(input *from)
{
    live *it = some_live(from);
    uint32_t site = 1 + next(from) % 3;
    fresh_live(it, &tables, site);
}

/* c/fuzz makes seeds that name the first two by their numbers. */
static void (*const CALLS[])(input *) = {
    makes_a_desk,   takes_bytes,      takes_a_message,    types,          replaces,      meets,
    asks,           reserves,         draws,              walks,          types,         reads_tables,
    replaces,       takes_a_message,  ends,               types,          document_takes, document_edits,
    shows,          document_turns,   documents_have_met, document_asks,  document_edits, document_takes,
    makes_a_document, shows,          positions_move,     document_edits, positions_move};

int LLVMFuzzerTestOneInput(const uint8_t *data, size_t data_size)
{
    input from = {data, data_size};
    if (!tables.held)
        CHECK(bidigrid_tables_unicode(&tables, false) == BIDIGRID_OK);
    for (uint32_t site = 1; site <= 2; site++) {
        CHECK(bidigrid_desk_new(&desks[site - 1], site, 1, 2) == BIDIGRID_OK);
        fresh_live(&lives[site - 1], &tables, site);
    }
    while (from.left)
        CALLS[next(&from) % (sizeof CALLS / sizeof *CALLS)](&from);
    bidigrid_desk_free(&desks[0]);
    bidigrid_desk_free(&desks[1]);
    free_live(&lives[0]);
    free_live(&lives[1]);
    bidigrid_picture_free(&picture);
    bidigrid_tables_free(&read_tables);
    return 0;
}
