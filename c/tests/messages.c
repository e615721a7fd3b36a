/* Documents that take messages, meet, and go on from what was saved: each call with right and wrong arguments. */
#include "documents.h"

#define HEADER "BGOP\x01"
#define A_AT_1 "\x00\x11\x01\x00\x00\x00\x01\x00\x01\x00\x00\x00\x00\x00\x00\x00\x00\x00" "a"
#define B_AFTER_A "\x00\x11\x01\x00\x00\x00\x02\x00\x01\x00\x00\x00\x01\x00\x01\x00\x00\x00" "b"
#define C_IN_ITS_PLACE "\x00\x11\x01\x00\x00\x00\x01\x00\x01\x00\x00\x00\x00\x00\x00\x00\x00\x00" "c"
#define A_GONE "\x00\x07\x02\x00\x00\x00\x01\x00\x01"

static bool is_taken(bidigrid_document *document, const char *message, size_t length, uint32_t answer,
                     size_t operations, size_t taken, size_t frame)
{
    bidigrid_taken told = {77, 77, 77};
    uint32_t given = bidigrid_document_take(document, utf8(message), length, &told);
    return given == answer && told.operations == operations && told.taken == taken && told.frame == frame;
}

#define TAKEN(document, message, answer, operations, taken, frame) \
    is_taken(document, message, sizeof(message) - 1, answer, operations, taken, frame)

/* Messages, and what they changed. */
static void tries_messages(void)
{
    bidigrid_document document = made(2, 8);
    CHECK(TAKEN(&document, HEADER, BIDIGRID_OK, 0, 0, 0) && tells(&document, ""));
    /* What comes early waits, and changes nothing until it comes to its place. */
    CHECK(TAKEN(&document, HEADER B_AFTER_A, BIDIGRID_OK, 1, 1, 0) && has_text(&document, "") && tells(&document, ""));
    CHECK(TAKEN(&document, HEADER A_AT_1, BIDIGRID_OK, 1, 1, 0) && has_text(&document, "ab"));
    CHECK(tells(&document, "0+a 1+b "));
    /* What is known changes nothing, and what a list has no room for is not told in part. */
    bidigrid_change changes[2];
    size_t count = 7;
    memset(changes, '?', sizeof changes);
    CHECK(bidigrid_document_changes(&document, changes, 1, &count) == BIDIGRID_FAULT_SHORT_BUFFER && count == 2);
    CHECK(changes[0].put == 0x3F3F3F3F);
    CHECK(bidigrid_document_changes(&document, NULL, 0, NULL) == BIDIGRID_FAULT_SHORT_BUFFER);
    CHECK(TAKEN(&document, HEADER A_AT_1 B_AFTER_A, BIDIGRID_OK, 2, 2, 0) && tells(&document, ""));
    CHECK(shows(&document, 0, 1, 1, 1, 0, "ab      \n"));
    /* One that is refused ends it there, and what came before it stays taken and is told. */
    CHECK(TAKEN(&document, HEADER A_GONE C_IN_ITS_PLACE B_AFTER_A, BIDIGRID_FAULT_IDENTIFIER_REUSED, 3, 1, 0));
    CHECK(has_text(&document, "b") && tells(&document, "0- ") && shows_nothing(&document));
    /* A message that is not read changes nothing, and nothing is told of it. */
    CHECK(shows(&document, 0, 0, 0, 1, 0, "b       \n"));
    CHECK(is_taken(&document, HEADER A_AT_1 B_AFTER_A, 42, BIDIGRID_FAULT_TRUNCATED, 0, 0, 2));
    CHECK(has_text(&document, "b") && tells(&document, "") && !shows_nothing(&document));
    CHECK(is_taken(&document, NULL, 0, BIDIGRID_FAULT_TRUNCATED, 0, 0, 0));
    /* An edit of its own is told as it was asked for. */
    uint8_t out[256];
    bytes message = {out, 0};
    CHECK(TAKEN(&document, HEADER A_AT_1, BIDIGRID_OK, 1, 1, 0) && tells(&document, ""));
    bidigrid_document typist = made(5, 8);
    CHECK(insert(&typist, 0, "xy", &message) == BIDIGRID_OK && tells(&typist, "0+x 1+y "));
    CHECK(bidigrid_document_take(&document, out, message.size, NULL) == BIDIGRID_OK && tells(&document, "0+x 1+y "));
    /* They stay told at another width, and go with the next edit. */
    CHECK(bidigrid_document_resize(&document, 9) == BIDIGRID_OK);
    CHECK(bidigrid_document_set_base(&document, BIDIGRID_BASE_LEFT_TO_RIGHT) == BIDIGRID_OK);
    CHECK(tells(&document, "0+x 1+y "));
    CHECK(insert(&document, 0, "z", &message) == BIDIGRID_OK && tells(&document, "0+z "));
    bidigrid_document_free(&typist);
    bidigrid_document_free(&document);
}

static void tries_merging(void)
{
    bidigrid_document one = made(1, 8), other = made(2, 8), none = BIDIGRID_NONE;
    uint8_t out[256];
    bytes message = {out, 0};
    CHECK(insert(&one, 0, "a", &message) == BIDIGRID_OK && insert(&other, 0, "b", &message) == BIDIGRID_OK);
    CHECK(bidigrid_document_merge(&one, &other) == BIDIGRID_OK && has_text(&one, "ba") && has_text(&other, "b"));
    CHECK(tells(&one, "0+b ") && tells(&other, "0+b "));
    CHECK(bidigrid_document_merge(&other, &one) == BIDIGRID_OK && has_text(&other, "ba") && tells(&other, "1+a "));
    CHECK(shows(&one, 0, 0, 0, 1, 0, "ba      \n"));
    /* With itself it stays as it is, and nothing is told. */
    CHECK(bidigrid_document_merge(&one, &one) == BIDIGRID_OK && has_text(&one, "ba") && tells(&one, ""));
    CHECK(!shows_nothing(&one) && bidigrid_document_merge(&one, &other) == BIDIGRID_OK && tells(&one, ""));
    CHECK(bidigrid_document_merge(&none, &none) == BIDIGRID_FAULT_EMPTY_HANDLE && !none.held);
    CHECK(bidigrid_document_merge(&none, &one) == BIDIGRID_FAULT_EMPTY_HANDLE && !none.held && has_text(&one, "ba"));
    CHECK(bidigrid_document_merge(&one, &none) == BIDIGRID_FAULT_EMPTY_HANDLE && has_text(&one, "ba"));
    /* It keeps its site: what it types next is no identifier of the other one's. */
    bidigrid_id id;
    CHECK(insert(&one, 2, "c", &message) == BIDIGRID_OK);
    CHECK(bidigrid_document_id_at(&one, 2, &id) == BIDIGRID_OK && id.site == 1 && id.counter == 2);
    bidigrid_document clash = made(1, 8);
    CHECK(insert(&clash, 0, "z", &message) == BIDIGRID_OK);
    CHECK(bidigrid_document_merge(&one, &clash) == BIDIGRID_FAULT_IDENTIFIER_REUSED && has_text(&one, "bac"));
    CHECK(tells(&one, ""));
    bidigrid_document_free(&one);
    bidigrid_document_free(&other);
    bidigrid_document_free(&clash);
}

static void tries_identifiers(void)
{
    bidigrid_document document = made(9, 8);
    uint8_t out[256];
    bytes message = {out, 0};
    size_t place = 77;
    bidigrid_id id = {5, 5};
    CHECK(insert(&document, 0, "abc", &message) == BIDIGRID_OK);
    CHECK(bidigrid_document_id_at(&document, 3, &id) == BIDIGRID_FAULT_BAD_PLACE && id.counter == 0 && id.site == 0);
    id = (bidigrid_id){5, 5};
    CHECK(bidigrid_document_place_of(&document, &id, &place) == BIDIGRID_FAULT_NOT_PLACED && place == 0);
    CHECK(bidigrid_document_id_at(&document, 2, &id) == BIDIGRID_OK && id.counter == 3 && id.site == 9);
    CHECK(bidigrid_document_erase(&document, 0, 1, out, sizeof out, &message.size) == BIDIGRID_OK);
    CHECK(bidigrid_document_place_of(&document, &id, &place) == BIDIGRID_OK && place == 1);
    id = (bidigrid_id){1, 0};
    place = 77;
    CHECK(bidigrid_document_place_of(&document, &id, &place) == BIDIGRID_FAULT_BAD_IDENTIFIER && place == 0);
    bidigrid_document_free(&document);
}

/* What a document has as one message, and a document and a desk that go on from it. */
static void tries_saving(void)
{
    bidigrid_document document = made(4, 8), opened = BIDIGRID_NONE;
    bidigrid_desk desk = BIDIGRID_NONE;
    uint8_t out[256], file[256];
    bytes message = {out, 0};
    size_t size;
    bidigrid_taken told;
    bidigrid_id id;
    CHECK(bidigrid_document_file(&document, file, sizeof file, &size) == BIDIGRID_OK);
    CHECK(is_text(file, size, "BGOP\x02"));
    CHECK(insert(&document, 0, "abc\nd", &message) == BIDIGRID_OK);
    CHECK(bidigrid_document_erase(&document, 1, 2, out, sizeof out, &message.size) == BIDIGRID_OK);
    CHECK(bidigrid_document_file(&document, NULL, 0, &size) == BIDIGRID_FAULT_SHORT_BUFFER);
    CHECK(size == 5 + (19 + 4 * 4) + 9);
    CHECK(bidigrid_document_file(&document, file, size, &size) == BIDIGRID_OK);
    CHECK(bidigrid_document_open(&opened, &tables, 4, 8, 0, 1, 2, file, size, &told) == BIDIGRID_OK && told.taken == 6);
    CHECK(has_text(&opened, "ac\nd") && tells(&opened, "") && shows_nothing(&opened));
    CHECK(shows(&opened, 3, 5, 5, 2, 1, "ac      \nd       \n"));
    CHECK(insert(&opened, 4, "z", &message) == BIDIGRID_OK && has_text(&opened, "ac\ndz"));
    CHECK(bidigrid_document_id_at(&opened, 4, &id) == BIDIGRID_OK && id.site == 4 && id.counter == 6);
    CHECK(shows(&opened, 3, 5, 5, 2, 1, "ac      \ndz      \n"));
    CHECK(bidigrid_desk_open(&desk, 5, 1, 2, file, size, NULL) == BIDIGRID_OK);
    bytes text = written(writes_text, &desk);
    CHECK(is_text(text.at, text.size, "ac\nd"));
    free(text.at);
    void *held = opened.held;
    told = (bidigrid_taken){77, 77, 77};
    CHECK(bidigrid_document_open(&opened, &tables, 4, 8, 0, 1, 2, file, size - 1, &told) == BIDIGRID_FAULT_TRUNCATED);
    CHECK(opened.held == held && told.frame == 2 && told.operations == 0 && told.taken == 0);
    CHECK(bidigrid_document_open(&opened, &tables, 65540, 8, 0, 1, 2, file, size, &told) == BIDIGRID_FAULT_BAD_SITE);
    CHECK(bidigrid_document_open(&opened, &tables, 4, 501, 0, 1, 2, file, size, &told) == BIDIGRID_FAULT_BAD_WIDTH);
    CHECK(told.operations == 0 && told.taken == 0 && told.frame == 0);
    CHECK(bidigrid_document_open(&opened, &tables, 4, 8, 7, 1, 2, file, size, &told) == BIDIGRID_FAULT_BAD_BASE);
    CHECK(bidigrid_document_open(&opened, &(bidigrid_tables)BIDIGRID_NONE, 4, 8, 0, 1, 2, file, size, &told) ==
          BIDIGRID_FAULT_EMPTY_HANDLE);
    CHECK(opened.held == held && has_text(&opened, "ac\ndz") && told.operations == 0 && told.taken == 0);
    bidigrid_desk_free(&desk);
    bidigrid_document_free(&opened);
    bidigrid_document_free(&document);
}

int main(void)
{
    CHECK(bidigrid_tables_unicode(&tables, false) == BIDIGRID_OK);
    tries_messages();
    tries_merging();
    tries_identifiers();
    tries_saving();
    bidigrid_tables_free(&tables);
    puts("messages: taken, told and saved as they have to be");
    return 0;
}
