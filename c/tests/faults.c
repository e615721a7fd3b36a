/* Each fault of the header by an input that has it, but BIDIGRID_FAULT_MEMORY, which refused.c has; and the greatest
 * texts, desks and reserves, with one more. */
#include "asserts.h"
#include "check.h"

#define FAULTS (sizeof ALL_FAULTS / sizeof *ALL_FAULTS)

static bool met[FAULTS];

/* Notes an answer, which has to be this one. */
static void answers(uint32_t answer, uint32_t wanted, const char *file, int line)
{
    if (answer != wanted) {
        fprintf(stderr, "%s:%d: answer %u, not %u\n", file, line, (unsigned)answer, (unsigned)wanted);
        exit(1);
    }
    for (size_t number = 0; number < FAULTS; number++)
        met[number] |= ALL_FAULTS[number].number == answer;
}

#define ANSWERS(call, wanted) answers(call, wanted, __FILE__, __LINE__)

static bidigrid_tables tables = BIDIGRID_NONE;
static uint8_t message[64];
static size_t size;
static bidigrid_taken told;

static void tries_pictures(void)
{
    bidigrid_picture picture = BIDIGRID_NONE;
    bidigrid_entry entry;
    bidigrid_row row;
    bidigrid_caret caret = {0, 9, 0};
    char out[2];
    ANSWERS(bidigrid_picture_rows(&picture, &size), BIDIGRID_FAULT_EMPTY_HANDLE);
    ANSWERS(bidigrid_picture_new(&picture, &tables, 1, 0, "a", 1), BIDIGRID_FAULT_BAD_WIDTH);
    ANSWERS(bidigrid_picture_new(&picture, &tables, 501, 0, "a", 1), BIDIGRID_FAULT_BAD_WIDTH);
    ANSWERS(bidigrid_picture_new(&picture, &tables, 2, 3, "a", 1), BIDIGRID_FAULT_BAD_BASE);
    ANSWERS(bidigrid_picture_new(&picture, &tables, 2, 0, "\xC3", 1), BIDIGRID_FAULT_NOT_UTF8);
    ANSWERS(bidigrid_picture_new(&picture, &tables, 4, 0, "ab", 2), BIDIGRID_OK);
    ANSWERS(bidigrid_picture_print(&picture, out, sizeof out, &size), BIDIGRID_FAULT_SHORT_BUFFER);
    ANSWERS(bidigrid_picture_row(&picture, 1, &row), BIDIGRID_FAULT_BAD_ROW);
    ANSWERS(bidigrid_picture_entry(&picture, 0, 2, &entry), BIDIGRID_FAULT_BAD_ENTRY);
    ANSWERS(bidigrid_caret_right(&picture, &caret), BIDIGRID_FAULT_BAD_CARET);
    ANSWERS(bidigrid_caret_at(&picture, 3, &caret), BIDIGRID_FAULT_BAD_PLACE);
    bidigrid_picture_free(&picture);
}

/* The greatest text that is drawn, in lines of Latin and Hebrew, and one byte more. */
static void tries_the_greatest_text(void)
{
    static const char LINE[] = "abc \u05D0\u05D1\u05D2 12\n";
    bidigrid_picture picture = BIDIGRID_NONE;
    size_t line = sizeof LINE - 1, rows;
    char *text = malloc(BIDIGRID_MAX_TEXT_SIZE + 1);
    CHECK(text);
    for (size_t at = 0; at < BIDIGRID_MAX_TEXT_SIZE + 1; at++)
        text[at] = at < BIDIGRID_MAX_TEXT_SIZE / line * line ? LINE[at % line] : 'z';
    ANSWERS(bidigrid_picture_new(&picture, &tables, 80, 0, text, BIDIGRID_MAX_TEXT_SIZE), BIDIGRID_OK);
    ANSWERS(bidigrid_picture_new(&picture, &tables, 80, 0, text, BIDIGRID_MAX_TEXT_SIZE + 1),
            BIDIGRID_FAULT_TEXT_TOO_LONG);
    CHECK(bidigrid_picture_rows(&picture, &rows) == BIDIGRID_OK && rows == BIDIGRID_MAX_TEXT_SIZE / line + 1);
    free(text);
    bidigrid_picture_free(&picture);
}

static void tries_small_desks(void)
{
    bidigrid_desk desk = BIDIGRID_NONE;
    bidigrid_id id = {0, 1}, unknown = {9, 9};
    ANSWERS(bidigrid_desk_new(&desk, 0, 0, 0), BIDIGRID_FAULT_BAD_SITE);
    ANSWERS(bidigrid_desk_new(&desk, BIDIGRID_MAX_SITE + 1, 0, 0), BIDIGRID_FAULT_BAD_SITE);
    ANSWERS(bidigrid_desk_new(&desk, BIDIGRID_MAX_SITE, 0, 0), BIDIGRID_OK);
    ANSWERS(bidigrid_desk_type(&desk, 0, 0xD800, message, sizeof message, &size), BIDIGRID_FAULT_BAD_CHARACTER);
    ANSWERS(bidigrid_desk_type(&desk, 1, 'a', message, sizeof message, &size), BIDIGRID_FAULT_BAD_PLACE);
    ANSWERS(bidigrid_desk_place_of(&desk, &id, &size), BIDIGRID_FAULT_BAD_IDENTIFIER);
    ANSWERS(bidigrid_desk_place_of(&desk, &unknown, &size), BIDIGRID_FAULT_NOT_PLACED);
    ANSWERS(bidigrid_desk_reserve(&desk, BIDIGRID_MAX_OPERATIONS + 1), BIDIGRID_FAULT_TOO_MANY);
    bidigrid_desk_free(&desk);
}

#define HEADER "BGOP\x01"
#define HEADER_2 "BGOP\x02"
#define INSERTION(counter, parent, character) "\x00\x11\x01\x00\x00\x00" counter "\x00\x01\x00\x00\x00" parent character
#define ROOT "\x00\x00\x00"
#define A                                                                                                              \
    "\x00\x00\x00"                                                                                                     \
    "a"

static const struct {
    const char *bytes;
    size_t size;
    uint32_t answer;
} MESSAGES[] = {
#define MESSAGE(bytes, answer)                                                                                         \
    {                                                                                                                  \
        bytes, sizeof(bytes) - 1, answer                                                                               \
    }
    MESSAGE(HEADER INSERTION("\x01", ROOT, A), BIDIGRID_OK),
    MESSAGE(HEADER INSERTION("\x01", ROOT,
                             "\x00\x00\x00"
                             "b"),
            BIDIGRID_FAULT_IDENTIFIER_REUSED),
    MESSAGE("BGOQ\x01", BIDIGRID_FAULT_BAD_MAGIC),
    MESSAGE("BGOP\x03", BIDIGRID_FAULT_BAD_VERSION),
    MESSAGE("BGOP", BIDIGRID_FAULT_TRUNCATED),
    MESSAGE(HEADER "\x00\x11\x01\x00", BIDIGRID_FAULT_TRUNCATED),
    MESSAGE(HEADER "\x00\x11\x03", BIDIGRID_FAULT_UNKNOWN_KIND),
    MESSAGE(HEADER "\x00\x12\x01", BIDIGRID_FAULT_BAD_LENGTH),
    MESSAGE(HEADER INSERTION("\x00", ROOT, A), BIDIGRID_FAULT_ZERO_FIELD),
    MESSAGE(HEADER INSERTION("\x01", "\x02\x00\x01", A), BIDIGRID_FAULT_PARENT_NOT_BEFORE),
    MESSAGE(HEADER INSERTION("\x01", ROOT, "\x00\x11\x00\x00"), BIDIGRID_FAULT_NOT_A_SCALAR),
    MESSAGE(HEADER_2 "\x00\x15\x03\xFF\xFF\xFF\xFF\x00\x01\x00\x00\x00\x00\x00\x00" A A,
            BIDIGRID_FAULT_COUNTER_OVERFLOW),
    MESSAGE(HEADER_2 INSERTION("\x01", ROOT, A) INSERTION("\x02", "\x01\x00\x01", A), BIDIGRID_FAULT_NOT_JOINED),
    /* The last counter: then this desk can type no more. */
    MESSAGE(HEADER "\x00\x11\x01\xFF\xFF\xFF\xFF\x00\x02\xFF\xFF\xFF\xFE\x00\x02" A, BIDIGRID_OK),
};

/* One byte more than a message may have. */
static void tries_the_longest_message(bidigrid_desk *desk)
{
    uint8_t *longest = calloc(BIDIGRID_MAX_MESSAGE_SIZE + 1, 1);
    CHECK(longest);
    ANSWERS(bidigrid_desk_take(desk, longest, BIDIGRID_MAX_MESSAGE_SIZE, &told), BIDIGRID_FAULT_BAD_MAGIC);
    ANSWERS(bidigrid_desk_take(desk, longest, BIDIGRID_MAX_MESSAGE_SIZE + 1, &told), BIDIGRID_FAULT_MESSAGE_TOO_LONG);
    free(longest);
}

static void tries_messages(void)
{
    bidigrid_desk desk = BIDIGRID_NONE;
    CHECK(bidigrid_desk_new(&desk, 3, 1, 2) == BIDIGRID_OK);
    for (size_t number = 0; number < sizeof MESSAGES / sizeof *MESSAGES; number++)
        ANSWERS(bidigrid_desk_take(&desk, utf8(MESSAGES[number].bytes), MESSAGES[number].size, &told),
                MESSAGES[number].answer);
    ANSWERS(bidigrid_desk_type(&desk, 0, 'z', message, sizeof message, &size), BIDIGRID_FAULT_COUNTER_SPENT);
    tries_the_longest_message(&desk);
    CHECK(bidigrid_desk_length(&desk, &size) == BIDIGRID_OK && size == 1);
    bidigrid_desk_free(&desk);
}

/* The message of so many characters that a site typed in one go: frames of at most 1,024. */
static bytes typed_in_a_row(size_t count)
{
    bytes all = {malloc(5 + 4 * count + 15 * (count / 1024 + 1)), 5};
    CHECK(all.at);
    memcpy(all.at, HEADER_2, 5);
    for (size_t done = 0; done < count;) {
        size_t some = count - done < 1024 ? count - done : 1024, length = 13 + 4 * some;
        const size_t numbers[] = {length << 8 | 3, done + 1, 1, done, done ? 1 : 0};
        static const int WIDTHS[] = {3, 4, 2, 4, 2};
        for (int field = 0; field < 5; field++)
            for (int byte = WIDTHS[field]; byte-- > 0;)
                all.at[all.size++] = (uint8_t)(numbers[field] >> 8 * byte);
        for (size_t end = done + some; done < end; done++, all.size += 4)
            memcpy(all.at + all.size, "\0\0\0a", 4);
    }
    return all;
}

/* A desk that has reserved the most operations takes as many, and not one more. */
static void tries_a_full_desk(void)
{
    static const char MORE[] = HEADER INSERTION("\x01", ROOT, A);
    bidigrid_desk desk = BIDIGRID_NONE, other = BIDIGRID_NONE;
    bytes most = typed_in_a_row(BIDIGRID_MAX_OPERATIONS - 1);
    CHECK(bidigrid_desk_new(&desk, 2, 1, 2) == BIDIGRID_OK && bidigrid_desk_new(&other, 3, 1, 2) == BIDIGRID_OK);
    ANSWERS(bidigrid_desk_reserve(&desk, BIDIGRID_MAX_OPERATIONS), BIDIGRID_OK);
    ANSWERS(bidigrid_desk_take(&desk, most.at, most.size, &told), BIDIGRID_OK);
    CHECK(told.operations == BIDIGRID_MAX_OPERATIONS - 1 && told.taken == told.operations);
    ANSWERS(bidigrid_desk_type(&desk, 500000, 'z', message, sizeof message, &size), BIDIGRID_OK);
    ANSWERS(bidigrid_desk_type(&desk, 0, 'z', message, sizeof message, &size), BIDIGRID_FAULT_FULL);
    ANSWERS(bidigrid_desk_erase(&desk, 0, 1, message, sizeof message, &size), BIDIGRID_FAULT_FULL);
    ANSWERS(bidigrid_desk_insert(&desk, 0, "z", 1, message, sizeof message, &size), BIDIGRID_FAULT_FULL);
    ANSWERS(bidigrid_desk_replace(&desk, 0, 1, "z", 1, message, sizeof message, &size), BIDIGRID_FAULT_FULL);
    ANSWERS(bidigrid_desk_reserve(&desk, BIDIGRID_MAX_OPERATIONS), BIDIGRID_OK);
    /* What it has may come again. */
    ANSWERS(bidigrid_desk_take(&desk, utf8(MORE), sizeof MORE - 1, &told), BIDIGRID_OK);
    ANSWERS(bidigrid_desk_type(&other, 0, 'y', message, sizeof message, &size), BIDIGRID_OK);
    ANSWERS(bidigrid_desk_take(&desk, message, size, &told), BIDIGRID_FAULT_FULL);
    CHECK(told.operations == 1 && told.taken == 0);
    ANSWERS(bidigrid_desk_merge(&desk, &other), BIDIGRID_FAULT_FULL);
    CHECK(bidigrid_desk_length(&desk, &size) == BIDIGRID_OK && size == BIDIGRID_MAX_OPERATIONS);
    free(most.at);
    bidigrid_desk_free(&desk);
    bidigrid_desk_free(&other);
}

/* A document of as many characters in one paragraph shows a window in its middle, and takes one more and no two. */
static void tries_a_full_document(void)
{
    bidigrid_document document = BIDIGRID_NONE;
    bidigrid_window window;
    bidigrid_row row;
    bytes most = typed_in_a_row(BIDIGRID_MAX_OPERATIONS - 1);
    ANSWERS(bidigrid_document_open(&document, &tables, 2, 80, 0, 1, 2, most.at, most.size, &told), BIDIGRID_OK);
    CHECK(told.taken == BIDIGRID_MAX_OPERATIONS - 1);
    ANSWERS(bidigrid_document_show(&document, 500000, 2, 1, &window), BIDIGRID_OK);
    CHECK(window.rows == 4 && window.number == 2);
    ANSWERS(bidigrid_document_row(&document, 2, &row), BIDIGRID_OK);
    CHECK(row.first_place == 500000 && row.last_place == 500080 && row.entries == 80);
    ANSWERS(bidigrid_document_show(&document, 0, BIDIGRID_MAX_WINDOW_ROWS + 1, 0, &window), BIDIGRID_FAULT_BAD_ROW);
    ANSWERS(bidigrid_document_insert(&document, 0, "z", 1, message, sizeof message, &size), BIDIGRID_OK);
    ANSWERS(bidigrid_document_insert(&document, 0, "z", 1, message, sizeof message, &size), BIDIGRID_FAULT_FULL);
    ANSWERS(bidigrid_document_erase(&document, 0, 1, message, sizeof message, &size), BIDIGRID_FAULT_FULL);
    free(most.at);
    bidigrid_document_free(&document);
}

static void tries_data_files(void)
{
    static const struct {
        const char *bytes;
        uint32_t answer;
    } FILES[] = {{"\xFF;L\n", BIDIGRID_FAULT_BAD_UTF8},
                 {"41;L\n", BIDIGRID_FAULT_BAD_CODE},
                 {"0042..0041;L\n", BIDIGRID_FAULT_BAD_RANGE},
                 {"0041;\n", BIDIGRID_FAULT_MISSING_FIELD},
                 {"0041;Q\n", BIDIGRID_FAULT_UNKNOWN_VALUE}};
    bidigrid_tables read = BIDIGRID_NONE;
    bidigrid_data_fault fault;
    for (size_t number = 0; number < sizeof FILES / sizeof *FILES; number++) {
        bidigrid_bytes files[BIDIGRID_DATA_FILES] = {{FILES[number].bytes, strlen(FILES[number].bytes)}};
        ANSWERS(bidigrid_tables_new(&read, files, false, &fault), FILES[number].answer);
    }
}

int main(void)
{
    CHECK(bidigrid_tables_unicode(&tables, false) == BIDIGRID_OK);
    tries_pictures();
    tries_the_greatest_text();
    tries_small_desks();
    tries_messages();
    tries_a_full_desk();
    tries_a_full_document();
    tries_data_files();
    bidigrid_tables_free(&tables);
    for (size_t number = 0; number < FAULTS; number++)
        if (!met[number] && ALL_FAULTS[number].number != BIDIGRID_FAULT_MEMORY) {
            fprintf(stderr, "no input has the fault %s\n", ALL_FAULTS[number].name);
            return 1;
        }
    printf("faults: %zu of %zu by an input of its own\n", FAULTS - 2, FAULTS - 1);
    return 0;
}
