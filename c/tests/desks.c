/* Desks: each call with right and wrong arguments. */
#include "check.h"

static bidigrid_desk made(uint32_t site)
{
    bidigrid_desk desk = BIDIGRID_NONE;
    CHECK(bidigrid_desk_new(&desk, site, 0x0123456789ABCDEF, site) == BIDIGRID_OK);
    return desk;
}

static bool has_text(bidigrid_desk *desk, const char *text)
{
    char out[64];
    size_t size = 0, places = 0, wanted = 0;
    CHECK(bidigrid_desk_text(desk, out, sizeof out, &size) == BIDIGRID_OK);
    CHECK(bidigrid_desk_length(desk, &places) == BIDIGRID_OK);
    for (const char *at = text; *at; at++)
        wanted += ((unsigned char)*at & 0xC0) != 0x80;
    return is_text(out, size, text) && places == wanted;
}

/* Typing and erasing, with the messages that say so, byte by byte. */
static void tries_typing(void)
{
    static const uint8_t FIRST[BIDIGRID_TYPED_SIZE] = {'B', 'G', 'O', 'P', 1, 0, 17, 1, 0, 0, 0, 1,
                                                       0,   3,   0,   0,   0, 0, 0,  0, 0, 0, 0, 'a'};
    static const uint8_t SECOND[BIDIGRID_TYPED_SIZE] = {'B', 'G', 'O', 'P', 1, 0, 17, 1, 0, 0, 0,    2,
                                                        0,   3,   0,   0,   0, 1, 0,  3, 0, 0, 0x05, 0xD0};
    static const uint8_t GONE[BIDIGRID_ERASED_SIZE] = {'B', 'G', 'O', 'P', 1, 0, 7, 2, 0, 0, 0, 1, 0, 3};
    bidigrid_desk desk = made(3);
    uint8_t out[32];
    size_t size = 0;
    CHECK(has_text(&desk, ""));
    memset(out, '?', sizeof out);
    CHECK(bidigrid_desk_type(&desk, 0, 'a', out, BIDIGRID_TYPED_SIZE - 1, &size) == BIDIGRID_FAULT_SHORT_BUFFER);
    CHECK(size == BIDIGRID_TYPED_SIZE && out[0] == '?' && has_text(&desk, ""));
    CHECK(bidigrid_desk_type(&desk, 0, 'a', NULL, 0, &size) == BIDIGRID_FAULT_SHORT_BUFFER);
    CHECK(size == BIDIGRID_TYPED_SIZE);
    CHECK(bidigrid_desk_type(&desk, 1, 'a', out, sizeof out, &size) == BIDIGRID_FAULT_BAD_PLACE && size == 0);
    CHECK(bidigrid_desk_type(&desk, SIZE_MAX, 'a', out, sizeof out, &size) == BIDIGRID_FAULT_BAD_PLACE);
    CHECK(bidigrid_desk_type(&desk, 0, 0xD800, out, sizeof out, &size) == BIDIGRID_FAULT_BAD_CHARACTER);
    CHECK(bidigrid_desk_type(&desk, 0, 0x110000, out, sizeof out, &size) == BIDIGRID_FAULT_BAD_CHARACTER);
    CHECK(has_text(&desk, "") && out[0] == '?');
    CHECK(bidigrid_desk_type(&desk, 0, 'a', out, sizeof out, &size) == BIDIGRID_OK && has_text(&desk, "a"));
    CHECK(size == sizeof FIRST && !memcmp(out, FIRST, size) && out[size] == '?');
    CHECK(bidigrid_desk_type(&desk, 1, 0x5D0, out, sizeof out, &size) == BIDIGRID_OK && has_text(&desk, "a\u05D0"));
    CHECK(size == sizeof SECOND && !memcmp(out, SECOND, size));
    memset(out, '?', sizeof out);
    CHECK(bidigrid_desk_erase(&desk, 2, 3, out, sizeof out, &size) == BIDIGRID_FAULT_BAD_PLACE && size == 0);
    CHECK(bidigrid_desk_erase(&desk, 1, 0, out, sizeof out, &size) == BIDIGRID_FAULT_BAD_PLACE);
    CHECK(bidigrid_desk_erase(&desk, 0, 1, out, BIDIGRID_ERASED_SIZE - 1, &size) == BIDIGRID_FAULT_SHORT_BUFFER);
    CHECK(size == BIDIGRID_ERASED_SIZE && out[0] == '?' && has_text(&desk, "a\u05D0"));
    CHECK(bidigrid_desk_erase(&desk, 0, 1, out, sizeof out, &size) == BIDIGRID_OK && has_text(&desk, "\u05D0"));
    CHECK(size == sizeof GONE && !memcmp(out, GONE, size) && out[size] == '?');
    /* What isn't wanted may be NULL. */
    CHECK(bidigrid_desk_type(&desk, 0, 'b', out, sizeof out, NULL) == BIDIGRID_OK && has_text(&desk, "b\u05D0"));
    CHECK(bidigrid_desk_erase(&desk, 0, 1, out, sizeof out, NULL) == BIDIGRID_OK && has_text(&desk, "\u05D0"));
    bidigrid_desk_free(&desk);
    bidigrid_desk_free(NULL);
}

/* Texts that are typed, and ranges that are erased, each in one message. */
static void tries_stretches(void)
{
    bidigrid_desk desk = made(3), other = made(4);
    bidigrid_taken told;
    uint8_t out[256];
    size_t size = 7;
    CHECK(bidigrid_desk_insert(&desk, 0, "ab\u05D0", 4, NULL, 0, &size) == BIDIGRID_FAULT_SHORT_BUFFER);
    CHECK(size == BIDIGRID_REPLACED_SIZE(0, 3) && has_text(&desk, ""));
    CHECK(bidigrid_desk_insert(&desk, 1, "a", 1, out, sizeof out, &size) == BIDIGRID_FAULT_BAD_PLACE && size == 0);
    CHECK(bidigrid_desk_insert(&desk, 0, "\xC3", 1, out, sizeof out, &size) == BIDIGRID_FAULT_NOT_UTF8 && size == 0);
    CHECK(bidigrid_desk_insert(&desk, 0, "ab\u05D0", 4, out, sizeof out, &size) == BIDIGRID_OK);
    CHECK(size == BIDIGRID_REPLACED_SIZE(0, 3) && has_text(&desk, "ab\u05D0"));
    CHECK(bidigrid_desk_take(&other, out, size, &told) == BIDIGRID_OK && told.taken == 3 && has_text(&other, "ab\u05D0"));
    CHECK(bidigrid_desk_insert(&desk, 2, "cd", 2, out, sizeof out, &size) == BIDIGRID_OK);
    CHECK(has_text(&desk, "abcd\u05D0"));
    CHECK(bidigrid_desk_take(&other, out, size, NULL) == BIDIGRID_OK);
    CHECK(bidigrid_desk_erase(&desk, 1, 4, out, BIDIGRID_REPLACED_SIZE(3, 0) - 1, &size) == BIDIGRID_FAULT_SHORT_BUFFER);
    CHECK(size == BIDIGRID_REPLACED_SIZE(3, 0) && has_text(&desk, "abcd\u05D0"));
    CHECK(bidigrid_desk_erase(&desk, 1, 6, out, sizeof out, &size) == BIDIGRID_FAULT_BAD_PLACE && size == 0);
    CHECK(bidigrid_desk_erase(&desk, 1, 4, out, sizeof out, &size) == BIDIGRID_OK && has_text(&desk, "a\u05D0"));
    CHECK(size == BIDIGRID_REPLACED_SIZE(3, 0));
    CHECK(bidigrid_desk_take(&other, out, size, &told) == BIDIGRID_OK && told.taken == 3 && has_text(&other, "a\u05D0"));
    /* Nothing that is erased or typed is a message of nothing. */
    CHECK(bidigrid_desk_erase(&desk, 2, 2, out, sizeof out, &size) == BIDIGRID_OK && is_text(out, size, "BGOP\x01"));
    CHECK(bidigrid_desk_insert(&desk, 2, NULL, 0, out, sizeof out, &size) == BIDIGRID_OK && size == 5);
    bidigrid_desk_free(&desk);
    bidigrid_desk_free(&other);
}

static uint32_t replaced(bidigrid_desk *desk, size_t from, size_t to, const char *text, uint8_t *out, size_t room,
                         size_t *size)
{
    return bidigrid_desk_replace(desk, from, to, text, strlen(text), out, room, size);
}

/* A word that is overwritten: one message, which makes another desk the same, or nothing. */
static void tries_replacing(void)
{
    static const uint8_t ONE[] = {'B', 'G', 'O', 'P', 1, 0, 7, 2, 0, 0, 0, 2, 0, 3,
                                  0,   17,  1,   0,   0, 0, 4, 0, 3, 0, 0, 0, 1, 0, 3, 0, 0, 0x05, 0xD0};
    bidigrid_desk desk = made(3), other = made(4);
    bidigrid_taken told;
    uint8_t out[256];
    size_t size = 0;
    CHECK(replaced(&desk, 0, 0, "abc", out, sizeof out, &size) == BIDIGRID_OK && has_text(&desk, "abc"));
    CHECK(size == BIDIGRID_REPLACED_SIZE(0, 3));
    CHECK(bidigrid_desk_take(&other, out, size, &told) == BIDIGRID_OK && told.taken == 3 && has_text(&other, "abc"));
    memset(out, '?', sizeof out);
    CHECK(replaced(&desk, 1, 2, "\u05D0", out, sizeof ONE - 1, &size) == BIDIGRID_FAULT_SHORT_BUFFER && size == sizeof ONE);
    CHECK(replaced(&desk, 1, 2, "\u05D0", NULL, 0, &size) == BIDIGRID_FAULT_SHORT_BUFFER);
    CHECK(replaced(&desk, 2, 1, "x", out, sizeof out, &size) == BIDIGRID_FAULT_BAD_PLACE);
    CHECK(replaced(&desk, 1, 4, "x", out, sizeof out, &size) == BIDIGRID_FAULT_BAD_PLACE);
    CHECK(replaced(&desk, SIZE_MAX, SIZE_MAX, "x", out, sizeof out, &size) == BIDIGRID_FAULT_BAD_PLACE);
    CHECK(replaced(&desk, 1, 2, "x\xFF", out, sizeof out, &size) == BIDIGRID_FAULT_NOT_UTF8);
    CHECK(out[0] == '?' && has_text(&desk, "abc"));
    CHECK(replaced(&desk, 1, 2, "\u05D0", out, sizeof out, &size) == BIDIGRID_OK && has_text(&desk, "a\u05D0c"));
    CHECK(size == sizeof ONE && !memcmp(out, ONE, size) && out[size] == '?');
    CHECK(bidigrid_desk_take(&other, out, size, &told) == BIDIGRID_OK && told.taken == 2);
    CHECK(has_text(&other, "a\u05D0c"));
    CHECK(replaced(&desk, 0, 3, "", out, sizeof out, &size) == BIDIGRID_OK && has_text(&desk, ""));
    CHECK(size == BIDIGRID_REPLACED_SIZE(3, 0));
    CHECK(bidigrid_desk_take(&other, out, size, &told) == BIDIGRID_OK && has_text(&other, ""));
    bidigrid_desk_free(&desk);
    bidigrid_desk_free(&other);
}

static void tries_sites(void)
{
    bidigrid_desk desk = made(65535);
    void *held = desk.held;
    CHECK(bidigrid_desk_new(&desk, 0, 0, 0) == BIDIGRID_FAULT_BAD_SITE && desk.held == held);
    CHECK(bidigrid_desk_new(&desk, BIDIGRID_MAX_SITE + 1, 0, 0) == BIDIGRID_FAULT_BAD_SITE && desk.held == held);
    CHECK(bidigrid_desk_new(&desk, BIDIGRID_MAX_SITE + 2, 0, 0) == BIDIGRID_FAULT_BAD_SITE && desk.held == held);
    CHECK(bidigrid_desk_new(&desk, UINT32_MAX, 0, 0) == BIDIGRID_FAULT_BAD_SITE && desk.held == held);
    CHECK(bidigrid_desk_new(&desk, 1, 0, 0) == BIDIGRID_OK);
    bidigrid_desk_free(&desk);
    bidigrid_desk_free(&desk);
    CHECK(!desk.held);
}

/* What a desk answers to a message. */
static bool is_taken(bidigrid_desk *desk, const char *message, size_t length, uint32_t answer, size_t operations,
                     size_t taken, size_t frame)
{
    bidigrid_taken told = {77, 77, 77};
    uint32_t given = bidigrid_desk_take(desk, utf8(message), length, &told);
    return given == answer && told.operations == operations && told.taken == taken && told.frame == frame;
}

#define HEADER "BGOP\x01"
#define A_AT_1 "\x00\x11\x01\x00\x00\x00\x01\x00\x01\x00\x00\x00\x00\x00\x00\x00\x00\x00" "a"
#define B_AFTER_A "\x00\x11\x01\x00\x00\x00\x02\x00\x01\x00\x00\x00\x01\x00\x01\x00\x00\x00" "b"
#define C_IN_ITS_PLACE "\x00\x11\x01\x00\x00\x00\x01\x00\x01\x00\x00\x00\x00\x00\x00\x00\x00\x00" "c"
#define TAKEN(desk, message, answer, operations, taken, frame) \
    is_taken(desk, message, sizeof(message) - 1, answer, operations, taken, frame)

static void tries_messages(void)
{
    bidigrid_desk desk = made(2);
    CHECK(TAKEN(&desk, HEADER, BIDIGRID_OK, 0, 0, 0));
    /* What comes early waits, and comes to its place. */
    CHECK(TAKEN(&desk, HEADER B_AFTER_A, BIDIGRID_OK, 1, 1, 0) && has_text(&desk, ""));
    CHECK(TAKEN(&desk, HEADER A_AT_1, BIDIGRID_OK, 1, 1, 0) && has_text(&desk, "ab"));
    CHECK(TAKEN(&desk, HEADER A_AT_1 B_AFTER_A, BIDIGRID_OK, 2, 2, 0) && has_text(&desk, "ab"));
    /* An identifier that is reused ends it there. */
    CHECK(TAKEN(&desk, HEADER A_AT_1 C_IN_ITS_PLACE B_AFTER_A, BIDIGRID_FAULT_IDENTIFIER_REUSED, 3, 1, 0));
    CHECK(has_text(&desk, "ab"));
    /* Faulty bytes are reported with their frame, and nothing of them is taken. */
    bidigrid_desk empty = made(3);
    CHECK(is_taken(&empty, NULL, 0, BIDIGRID_FAULT_TRUNCATED, 0, 0, 0));
    CHECK(TAKEN(&empty, "BGOQ\x01", BIDIGRID_FAULT_BAD_MAGIC, 0, 0, 0));
    CHECK(TAKEN(&empty, "BGOP\x03", BIDIGRID_FAULT_BAD_VERSION, 0, 0, 0));
    CHECK(is_taken(&empty, HEADER A_AT_1 B_AFTER_A, 42, BIDIGRID_FAULT_TRUNCATED, 0, 0, 2));
    CHECK(TAKEN(&empty, HEADER A_AT_1 "\x00\x11\x04", BIDIGRID_FAULT_UNKNOWN_KIND, 0, 0, 2));
    CHECK(TAKEN(&empty, HEADER "\x00\x12\x01", BIDIGRID_FAULT_BAD_LENGTH, 0, 0, 1));
    CHECK(TAKEN(&empty, HEADER "\x00\x07\x02\x00\x00\x00\x00\x00\x01", BIDIGRID_FAULT_ZERO_FIELD, 0, 0, 1));
    CHECK(TAKEN(&empty, HEADER "\x00\x11\x01\x00\x00\x00\x01\x00\x01\x00\x00\x00\x02\x00\x02\x00\x00\x00" "a",
                BIDIGRID_FAULT_PARENT_NOT_BEFORE, 0, 0, 1));
    CHECK(TAKEN(&empty, HEADER "\x00\x11\x01\x00\x00\x00\x01\x00\x01\x00\x00\x00\x00\x00\x00\x00\x11\x00\x00",
                BIDIGRID_FAULT_NOT_A_SCALAR, 0, 0, 1));
    CHECK(has_text(&empty, ""));
    /* A run of version 2. */
    CHECK(TAKEN(&empty, "BGOP\x02\x00\x15\x03\x00\x00\x00\x01\x00\x01\x00\x00\x00\x00\x00\x00\x00\x00\x00" "a"
                "\x00\x00\x00" "b", BIDIGRID_OK, 2, 2, 0) && has_text(&empty, "ab"));
    /* One byte more than is read. */
    uint8_t *large = calloc(BIDIGRID_MAX_MESSAGE_SIZE + 1, 1);
    CHECK(large);
    bidigrid_taken told = {77, 77, 77};
    CHECK(bidigrid_desk_take(&desk, large, BIDIGRID_MAX_MESSAGE_SIZE + 1, &told) == BIDIGRID_FAULT_MESSAGE_TOO_LONG);
    CHECK(told.operations == 0 && told.taken == 0 && told.frame == 0 && has_text(&desk, "ab"));
    CHECK(bidigrid_desk_take(&desk, large, BIDIGRID_MAX_MESSAGE_SIZE, &told) == BIDIGRID_FAULT_BAD_MAGIC);
    free(large);
    bidigrid_desk_free(&desk);
    bidigrid_desk_free(&empty);
}

static void tries_merging(void)
{
    bidigrid_desk one = made(1), other = made(2), none = BIDIGRID_NONE;
    uint8_t out[BIDIGRID_TYPED_SIZE];
    size_t size;
    CHECK(bidigrid_desk_type(&one, 0, 'a', out, sizeof out, &size) == BIDIGRID_OK);
    CHECK(bidigrid_desk_type(&other, 0, 'b', out, sizeof out, &size) == BIDIGRID_OK);
    CHECK(bidigrid_desk_merge(&one, &other) == BIDIGRID_OK && has_text(&one, "ba") && has_text(&other, "b"));
    CHECK(bidigrid_desk_merge(&other, &one) == BIDIGRID_OK && has_text(&other, "ba"));
    CHECK(bidigrid_desk_merge(&one, &one) == BIDIGRID_OK && has_text(&one, "ba"));
    CHECK(bidigrid_desk_merge(&none, &none) == BIDIGRID_FAULT_EMPTY_HANDLE && !none.held);
    CHECK(bidigrid_desk_merge(&none, &one) == BIDIGRID_FAULT_EMPTY_HANDLE && !none.held && has_text(&one, "ba"));
    CHECK(bidigrid_desk_merge(&one, &none) == BIDIGRID_FAULT_EMPTY_HANDLE && has_text(&one, "ba"));
    /* The desk keeps its site: what it types next is no identifier of the other one's. */
    bidigrid_id id;
    CHECK(bidigrid_desk_type(&one, 2, 'c', out, sizeof out, &size) == BIDIGRID_OK);
    CHECK(bidigrid_desk_id_at(&one, 2, &id) == BIDIGRID_OK && id.site == 1 && id.counter == 2);
    CHECK(bidigrid_desk_erase(&one, 2, 3, out, sizeof out, &size) == BIDIGRID_OK);
    bidigrid_desk clash = made(1);
    CHECK(bidigrid_desk_type(&clash, 0, 'z', out, sizeof out, &size) == BIDIGRID_OK);
    CHECK(bidigrid_desk_merge(&one, &clash) == BIDIGRID_FAULT_IDENTIFIER_REUSED && has_text(&one, "ba"));
    bidigrid_desk_free(&one);
    bidigrid_desk_free(&other);
    bidigrid_desk_free(&clash);
}

static void tries_identifiers(void)
{
    bidigrid_desk desk = made(9);
    uint8_t out[BIDIGRID_TYPED_SIZE];
    size_t size, place = 77;
    for (uint32_t i = 0; i < 3; i++)
        CHECK(bidigrid_desk_type(&desk, i, 'a' + i, out, sizeof out, &size) == BIDIGRID_OK);
    bidigrid_id id = {5, 5};
    CHECK(bidigrid_desk_id_at(&desk, 3, &id) == BIDIGRID_FAULT_BAD_PLACE && id.counter == 0 && id.site == 0);
    id = (bidigrid_id){5, 5};
    CHECK(bidigrid_desk_place_of(&desk, &id, &place) == BIDIGRID_FAULT_NOT_PLACED && place == 0);
    CHECK(bidigrid_desk_id_at(&desk, 2, &id) == BIDIGRID_OK && id.counter == 3 && id.site == 9);
    CHECK(bidigrid_desk_erase(&desk, 0, 1, out, sizeof out, &size) == BIDIGRID_OK);
    CHECK(bidigrid_desk_place_of(&desk, &id, &place) == BIDIGRID_OK && place == 1);
    CHECK(bidigrid_desk_erase(&desk, 1, 2, out, sizeof out, &size) == BIDIGRID_OK);
    CHECK(bidigrid_desk_place_of(&desk, &id, &place) == BIDIGRID_OK && place == 1);
    id.counter = 0;
    CHECK(bidigrid_desk_place_of(&desk, &id, &place) == BIDIGRID_FAULT_BAD_IDENTIFIER);
    id = (bidigrid_id){1, 0};
    place = 77;
    CHECK(bidigrid_desk_place_of(&desk, &id, &place) == BIDIGRID_FAULT_BAD_IDENTIFIER && place == 0);
    id.site = BIDIGRID_MAX_SITE + 10; /* 9, were it narrowed */
    CHECK(bidigrid_desk_place_of(&desk, &id, &place) == BIDIGRID_FAULT_BAD_IDENTIFIER && place == 0);
    bidigrid_desk_free(&desk);
}

/* What a desk has as one message: another desk that takes it is the same, with what waits and what was erased. */
static void tries_saving(void)
{
    bidigrid_desk desk = made(4), newcomer = made(5), none = BIDIGRID_NONE;
    uint8_t out[128], again[128];
    size_t size, same;
    bidigrid_taken told;
    CHECK(bidigrid_desk_file(&desk, out, sizeof out, &size) == BIDIGRID_OK && is_text(out, size, "BGOP\x02"));
    for (uint32_t i = 0; i < 5; i++)
        CHECK(bidigrid_desk_type(&desk, i, 'a' + i, out, sizeof out, &size) == BIDIGRID_OK);
    CHECK(bidigrid_desk_erase(&desk, 1, 2, out, sizeof out, &size) == BIDIGRID_OK);
    CHECK(TAKEN(&desk, HEADER B_AFTER_A, BIDIGRID_OK, 1, 1, 0) && has_text(&desk, "acde"));
    CHECK(bidigrid_desk_file(&desk, NULL, 0, &size) == BIDIGRID_FAULT_SHORT_BUFFER);
    /* A run of five, a deletion, and the insertion that waits. */
    CHECK(size == 5 + (19 + 4 * 4) + 9 + 19);
    CHECK(bidigrid_desk_file(&desk, out, size, &size) == BIDIGRID_OK);
    CHECK(bidigrid_desk_take(&newcomer, out, size, &told) == BIDIGRID_OK && told.operations == 7 && told.taken == 7);
    CHECK(has_text(&newcomer, "acde"));
    CHECK(bidigrid_desk_file(&newcomer, again, sizeof again, &same) == BIDIGRID_OK);
    CHECK(same == size && !memcmp(out, again, size));
    /* A desk of the file goes on under its own site; a faulty file leaves the handle as it was. */
    bidigrid_desk reopened = BIDIGRID_NONE;
    bidigrid_id id;
    CHECK(bidigrid_desk_open(&reopened, 4, 1, 2, out, size, &told) == BIDIGRID_OK && told.taken == 7);
    CHECK(has_text(&reopened, "acde"));
    CHECK(bidigrid_desk_type(&reopened, 4, 'z', again, sizeof again, &same) == BIDIGRID_OK);
    CHECK(bidigrid_desk_id_at(&reopened, 4, &id) == BIDIGRID_OK && id.site == 4 && id.counter == 6);
    void *held = reopened.held;
    CHECK(bidigrid_desk_open(&reopened, 4, 1, 2, out, size - 1, &told) == BIDIGRID_FAULT_TRUNCATED);
    CHECK(reopened.held == held && told.frame == 3 && told.operations == 0 && told.taken == 0);
    CHECK(bidigrid_desk_open(&reopened, 65540, 1, 2, out, size, &told) == BIDIGRID_FAULT_BAD_SITE && told.frame == 0);
    CHECK(reopened.held == held && has_text(&reopened, "acdez"));
    CHECK(bidigrid_desk_open(&none, 4, 1, 2, NULL, 0, &told) == BIDIGRID_FAULT_TRUNCATED && !none.held);
    bidigrid_desk_free(&reopened);
    CHECK(TAKEN(&newcomer, HEADER A_AT_1, BIDIGRID_OK, 1, 1, 0) && has_text(&newcomer, "acdeab"));
    CHECK(bidigrid_desk_file(&none, out, sizeof out, &size) == BIDIGRID_FAULT_EMPTY_HANDLE);
    bidigrid_desk_free(&desk);
    bidigrid_desk_free(&newcomer);
}

static void tries_room(void)
{
    bidigrid_desk desk = made(1);
    CHECK(bidigrid_desk_reserve(&desk, BIDIGRID_MAX_OPERATIONS + 1) == BIDIGRID_FAULT_TOO_MANY);
    CHECK(bidigrid_desk_reserve(&desk, SIZE_MAX) == BIDIGRID_FAULT_TOO_MANY);
    CHECK(bidigrid_desk_reserve(&desk, 0) == BIDIGRID_OK && bidigrid_desk_reserve(&desk, 100) == BIDIGRID_OK);
    size_t size = 0;
    CHECK(bidigrid_desk_text(&desk, NULL, 0, &size) == BIDIGRID_OK && size == 0);
    uint8_t out[BIDIGRID_TYPED_SIZE];
    char text[3];
    CHECK(bidigrid_desk_type(&desk, 0, 0x1F44D, out, sizeof out, &size) == BIDIGRID_OK);
    CHECK(bidigrid_desk_text(&desk, text, 3, &size) == BIDIGRID_FAULT_SHORT_BUFFER && size == 4);
    bidigrid_desk_free(&desk);
}

static void tries_the_last_counter(void)
{
    bidigrid_desk desk = made(1);
    uint8_t out[BIDIGRID_TYPED_SIZE];
    size_t size;
    CHECK(TAKEN(&desk, HEADER "\x00\x11\x01\xFF\xFF\xFF\xFF\x00\x02\xFF\xFF\xFF\xFE\x00\x02\x00\x00\x00" "a",
                BIDIGRID_OK, 1, 1, 0));
    CHECK(bidigrid_desk_type(&desk, 0, 'z', out, sizeof out, &size) == BIDIGRID_FAULT_COUNTER_SPENT && has_text(&desk, ""));
    bidigrid_desk_free(&desk);
}

/* An empty handle is a fault, all out values are written, and it stays empty. */
static void tries_empty_handles(void)
{
    bidigrid_desk none = BIDIGRID_NONE;
    uint8_t out[32];
    char text[32];
    size_t size = 7;
    bidigrid_taken told = {7, 7, 7};
    bidigrid_id id = {1, 1};
#define IS_EMPTY(call) (size = 7, (call) == BIDIGRID_FAULT_EMPTY_HANDLE && size == 0 && !none.held)
    CHECK(IS_EMPTY(bidigrid_desk_type(&none, 0, 'a', out, sizeof out, &size)));
    CHECK(IS_EMPTY(bidigrid_desk_insert(&none, 0, "a", 1, out, sizeof out, &size)));
    CHECK(IS_EMPTY(bidigrid_desk_erase(&none, 0, 1, out, sizeof out, &size)));
    CHECK(IS_EMPTY(bidigrid_desk_replace(&none, 0, 0, "a", 1, out, sizeof out, &size)));
    CHECK(IS_EMPTY(bidigrid_desk_text(&none, text, sizeof text, &size)));
    CHECK(IS_EMPTY(bidigrid_desk_file(&none, out, sizeof out, &size)));
    CHECK(IS_EMPTY(bidigrid_desk_length(&none, &size)));
    CHECK(IS_EMPTY(bidigrid_desk_place_of(&none, &id, &size)));
    CHECK(bidigrid_desk_take(&none, utf8(HEADER), 5, &told) == BIDIGRID_FAULT_EMPTY_HANDLE && !none.held);
    CHECK(told.operations == 0 && told.taken == 0 && told.frame == 0);
    CHECK(bidigrid_desk_reserve(&none, 1) == BIDIGRID_FAULT_EMPTY_HANDLE && !none.held);
    CHECK(bidigrid_desk_id_at(&none, 0, &id) == BIDIGRID_FAULT_EMPTY_HANDLE && id.counter == 0 && id.site == 0);
    bidigrid_desk_free(&none);
}

int main(void)
{
    tries_typing();
    tries_stretches();
    tries_replacing();
    tries_sites();
    tries_messages();
    tries_merging();
    tries_identifiers();
    tries_saving();
    tries_room();
    tries_the_last_counter();
    tries_empty_handles();
    puts("desks: as they have to be");
    return 0;
}
