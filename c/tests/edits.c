/* Random edits at three copies of a text, desks or documents, which take each other's messages late and in any order. In
 * the end all three have one text, and so has a new one that goes on from what one of them saves. Beside each document a
 * plain list follows it by what it tells, and after each step it shows the rows that a picture of its text has. Arguments:
 * desks or documents, a seed, how many edits, and a folder, into which go all operations (all.bgop, saved.bgop), the text,
 * and its print at 24 columns. */
#include "check.h"
#include "follow.h"

#define COPIES 3
#define MOST_ERASED 5
#define MOST_TYPED 8

typedef struct message {
    uint8_t bytes[BIDIGRID_REPLACED_SIZE(MOST_ERASED, MOST_TYPED)];
    size_t size;
} message;

typedef union copy {
    bidigrid_desk desk;
    bidigrid_document document;
} copy;

static bool are_documents;
static bidigrid_tables tables = BIDIGRID_NONE;
static message *sent;
static size_t sent_count;
static copy copies[COPIES];

/* What follows each document, and the width and the base that it is drawn at. */
static followed texts[COPIES];
static uint32_t widths[COPIES], bases[COPIES];

/* Which messages a copy has still to take. */
static size_t *waiting[COPIES], waiting_count[COPIES];

/* The calls that desks and documents share. */
#define OF(it, call, ...) \
    (are_documents ? bidigrid_document_##call(&(it)->document, __VA_ARGS__) : bidigrid_desk_##call(&(it)->desk, __VA_ARGS__))

static bytes text_of(const copy *it)
{
    return are_documents ? written(writes_document_text, &it->document) : written(writes_text, &it->desk);
}

static bytes file_of(const copy *it)
{
    return are_documents ? written(writes_document_file, &it->document) : written(writes_file, &it->desk);
}

static void make(size_t number)
{
    copies[number] = (copy){.document = BIDIGRID_NONE};
    widths[number] = 24;
    bases[number] = BIDIGRID_BASE_AUTO;
    uint32_t site = (uint32_t)number + 1;
    uint64_t key = below(SIZE_MAX);
    CHECK((are_documents
               ? bidigrid_document_new(&copies[number].document, &tables, site, widths[number], bases[number], key, 7)
               : bidigrid_desk_new(&copies[number].desk, site, key, 7)) == BIDIGRID_OK);
}

static void drop(copy *it)
{
    if (are_documents)
        bidigrid_document_free(&it->document);
    else
        bidigrid_desk_free(&it->desk);
}

/* Looks at a document after a step. */
static void look(size_t number)
{
    if (!are_documents)
        return;
    CHECK(is_followed(&texts[number], &copies[number].document));
    shows_its_rows(&copies[number].document, &tables, widths[number], bases[number]);
}

/* Has the list do what a document tells of its own edit, which is that so many characters went and came. */
static void follow(size_t number, size_t characters)
{
    CHECK(!are_documents || hear(&texts[number], &copies[number].document) == characters);
}

static uint32_t replace(size_t number, size_t places, message *made)
{
    uint8_t text[4 * MOST_TYPED], *end = text;
    size_t from = below(places + 1), erased = below(MOST_ERASED + 1), count = below(MOST_TYPED + 1);
    for (size_t at = 0; at < count; at++)
        end = put_utf8(end, random_letter());
    size_t to = from + erased < places ? from + erased : places;
    uint32_t answer = OF(&copies[number], replace, from, to, (const char *)text, (size_t)(end - text), made->bytes,
                         sizeof made->bytes, &made->size);
    follow(number, to - from + count);
    return answer;
}

static uint32_t erase(size_t number, size_t places, message *made)
{
    size_t place = below(places);
    uint32_t answer = OF(&copies[number], erase, place, place + 1, made->bytes, sizeof made->bytes, &made->size);
    follow(number, 1);
    return answer;
}

static uint32_t type(size_t number, size_t places, message *made)
{
    size_t place = below(places + 1);
    uint32_t letter = random_letter();
    uint8_t text[4];
    size_t size = (size_t)(put_utf8(text, letter) - text);
    if (!are_documents)
        return bidigrid_desk_type(&copies[number].desk, place, letter, made->bytes, sizeof made->bytes, &made->size);
    uint32_t answer = bidigrid_document_insert(&copies[number].document, place, (const char *)text, size, made->bytes,
                                               sizeof made->bytes, &made->size);
    follow(number, 1);
    return answer;
}

static void edit(size_t number)
{
    message *made = &sent[sent_count];
    size_t places;
    CHECK(OF(&copies[number], length, &places) == BIDIGRID_OK);
    CHECK((below(8) == 0                 ? replace(number, places, made)
           : places > 0 && below(4) == 0 ? erase(number, places, made)
                                         : type(number, places, made)) == BIDIGRID_OK);
    for (size_t other = 0; other < COPIES; other++)
        if (other != number)
            waiting[other][waiting_count[other]++] = sent_count;
    sent_count++;
}

/* Takes one of the messages that wait, whichever it is. */
static void take_one(size_t number)
{
    size_t chosen = below(waiting_count[number]);
    message *it = &sent[waiting[number][chosen]];
    waiting[number][chosen] = waiting[number][--waiting_count[number]];
    bidigrid_taken told;
    CHECK(OF(&copies[number], take, it->bytes, it->size, &told) == BIDIGRID_OK);
    CHECK(told.taken == told.operations && told.frame == 0);
    if (are_documents)
        hear(&texts[number], &copies[number].document);
}

/* Has a document drawn at another width and base, which changes no text. */
static void turn(size_t number)
{
    widths[number] = 2 + (uint32_t)below(40);
    bases[number] = (uint32_t)below(3);
    CHECK(bidigrid_document_resize(&copies[number].document, widths[number]) == BIDIGRID_OK);
    CHECK(bidigrid_document_set_base(&copies[number].document, bases[number]) == BIDIGRID_OK);
}

static void meet(size_t number, size_t other)
{
    CHECK((are_documents ? bidigrid_document_merge(&copies[number].document, &copies[other].document)
                         : bidigrid_desk_merge(&copies[number].desk, &copies[other].desk)) == BIDIGRID_OK);
    if (are_documents)
        hear(&texts[number], &copies[number].document);
}

static void step(void)
{
    size_t number = below(COPIES);
    if (waiting_count[number] > 0 && below(3) > 0)
        take_one(number);
    else if (are_documents && below(40) == 0)
        turn(number);
    else if (are_documents && below(40) == 0)
        meet(number, (number + 1) % COPIES);
    else
        edit(number);
    look(number);
}

static FILE *create(const char *folder, const char *name)
{
    char path[512];
    CHECK(snprintf(path, sizeof path, "%s/%s", folder, name) < (int)sizeof path);
    FILE *file = fopen(path, "wb");
    CHECK(file);
    return file;
}

static void write_file(const char *folder, const char *name, bytes of)
{
    FILE *file = create(folder, name);
    CHECK(fwrite(of.at, 1, of.size, file) == of.size && fclose(file) == 0);
}

/* The frames of all messages as one file. */
static void write_messages(const char *folder)
{
    FILE *file = create(folder, "all.bgop");
    CHECK(fwrite("BGOP\x01", 1, 5, file) == 5);
    for (size_t i = 0; i < sent_count; i++) {
        CHECK(!memcmp(sent[i].bytes, "BGOP\x01", 5));
        CHECK(fwrite(sent[i].bytes + 5, 1, sent[i].size - 5, file) == sent[i].size - 5);
    }
    CHECK(fclose(file) == 0);
}

/* What one copy has, saved, and gone on from by a new one. */
static void save(const char *folder)
{
    copy newcomer = {.document = BIDIGRID_NONE};
    bidigrid_taken told;
    bytes saved = file_of(&copies[0]);
    CHECK((are_documents ? bidigrid_document_open(&newcomer.document, &tables, COPIES + 1, 30, 0, 5, 7, saved.at,
                                                  saved.size, &told)
                         : bidigrid_desk_open(&newcomer.desk, COPIES + 1, 5, 7, saved.at, saved.size, &told)) ==
          BIDIGRID_OK);
    CHECK(told.taken == told.operations && same_bytes(text_of(&newcomer), text_of(&copies[0])));
    if (are_documents)
        shows_its_rows(&newcomer.document, &tables, 30, 0);
    write_file(folder, "saved.bgop", saved);
    free(saved.at);
    drop(&newcomer);
}

static void write_print(const char *folder, bytes text)
{
    bidigrid_picture picture = BIDIGRID_NONE;
    CHECK(bidigrid_picture_new(&picture, &tables, 24, BIDIGRID_BASE_AUTO, chars(text), text.size) == BIDIGRID_OK);
    bytes print = written(writes_print, &picture);
    write_file(folder, "print", print);
    free(print.at);
    bidigrid_picture_free(&picture);
}

/* The whole text as a document shows it, where its rows are no more than a window has. */
static void write_shown(const char *folder, bidigrid_document *document)
{
    bidigrid_window window;
    CHECK(bidigrid_document_resize(document, 24) == BIDIGRID_OK);
    CHECK(bidigrid_document_set_base(document, BIDIGRID_BASE_AUTO) == BIDIGRID_OK);
    CHECK(bidigrid_document_show(document, 0, 0, BIDIGRID_MAX_WINDOW_ROWS, &window) == BIDIGRID_OK);
    CHECK(window.rows <= BIDIGRID_MAX_WINDOW_ROWS);
    bytes print = written(writes_window, document);
    write_file(folder, "print", print);
    free(print.at);
}

int main(int count, char **words)
{
    CHECK(count == 5 && (!strcmp(words[1], "documents") || !strcmp(words[1], "desks")));
    are_documents = !strcmp(words[1], "documents");
    seed_random(strtoull(words[2], NULL, 10));
    size_t edits = strtoul(words[3], NULL, 10);
    CHECK(bidigrid_tables_unicode(&tables, false) == BIDIGRID_OK);
    sent = calloc(edits, sizeof *sent);
    CHECK(sent);
    for (size_t number = 0; number < COPIES; number++) {
        waiting[number] = calloc(edits, sizeof **waiting);
        CHECK(waiting[number]);
        make(number);
    }
    while (sent_count < edits)
        step();
    /* Two take what is still on its way; the last meets one of them. */
    for (size_t number = 0; number + 1 < COPIES; number++)
        while (waiting_count[number] > 0)
            take_one(number);
    meet(COPIES - 1, 0);
    bytes text = text_of(&copies[0]);
    for (size_t number = 0; number < COPIES; number++) {
        look(number);
        CHECK(same_bytes(text_of(&copies[number]), copied(text)));
    }
    save(words[4]);
    write_messages(words[4]);
    write_file(words[4], "text", text);
    if (are_documents)
        write_shown(words[4], &copies[0].document);
    else
        write_print(words[4], text);
    printf("seed %s: %zu edits at %d %s, one text of %zu bytes\n", words[2], edits, COPIES, words[1], text.size);
    free(text.at);
    free(sent);
    for (size_t number = 0; number < COPIES; number++) {
        free(waiting[number]);
        free(texts[number].characters);
        drop(&copies[number]);
    }
    bidigrid_tables_free(&tables);
    return 0;
}
