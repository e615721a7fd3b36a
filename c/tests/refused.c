/* Memory that is refused: each call that takes some is made with each of its requests refused in turn, at desks and
 * documents whose sequences have many blocks. Either it answers BIDIGRID_FAULT_MEMORY, nothing has changed, and it does
 * its work when it is called again; or it does its work without. What desks, documents and pictures answer is compared
 * whole; a document that had no memory to tell its changes says so. Argument: how many sizes of a text a character is
 * typed into, 300 where none is given. */
#include "refuse_malloc.h"
#include "refused_calls.h"

/* How many characters the desk still types while all memory is refused. */
static size_t spare(void)
{
    uint8_t typed[BIDIGRID_TYPED_SIZE];
    size_t count = 0, typed_size;
    refuse_all();
    while (desk.held && count < 8 * MANY &&
           bidigrid_desk_type(&desk, 0, 'z', typed, sizeof typed, &typed_size) == BIDIGRID_OK)
        count++;
    refuse_at(0);
    return count;
}

typedef struct row {
    const char *name;
    void (*before)(void);
    uint32_t (*call)(void);
    bool in_part; /* whether a part of it may have been done where memory was refused */
} row;

/* What there is before a call and after it in peace. */
typedef struct peace {
    state before, done;
    size_t spare_before;
    uint8_t out[sizeof out];
} peace;

static void make_in_peace(const row *it, peace *all)
{
    it->before();
    all->before = as_it_is();
    all->spare_before = spare();
    it->before();
    memset(out, '?', sizeof out);
    CHECK(it->call() == BIDIGRID_OK);
    memcpy(all->out, out, sizeof out);
    all->done = as_it_is();
}

/* Makes the call with one request refused, and answers whether it met that. */
static uint32_t refused_at(const row *it, long number, bool *met)
{
    it->before();
    memset(out, '?', sizeof out);
    refuse_at(number);
    uint32_t answer = it->call();
    *met = was_refused();
    refuse_at(0);
    return answer;
}

/* After BIDIGRID_FAULT_MEMORY: nothing has changed, and the call does its work when it is made again. */
static void is_kept(const row *it, long number, const peace *all)
{
    bool met;
    CHECK(it->in_part || is_state(&all->before, false));
    for (size_t at = 0; at < sizeof out; at++)
        CHECK(out[at] == '?');
    CHECK(it->call() == BIDIGRID_OK && is_state(&all->done, it->in_part));
    /* None that was spare is lost; a reserve that is refused may leave what it got before. */
    CHECK(refused_at(it, number, &met) == BIDIGRID_FAULT_MEMORY && (it->in_part || spare() >= all->spare_before));
}

/* One request is refused; returns whether the call met it. */
static bool try_one(const row *it, long number, const peace *all, long *refused)
{
    bool met;
    uint32_t answer = refused_at(it, number, &met);
    if (answer == BIDIGRID_OK) {
        CHECK(is_state(&all->done, false) && !memcmp(out, all->out, sizeof out));
        return met;
    }
    if (answer != BIDIGRID_FAULT_MEMORY || !met) {
        fprintf(stderr, "%s: request %ld refused, answer %u\n", it->name, number, (unsigned)answer);
        exit(1);
    }
    ++*refused;
    is_kept(it, number, all);
    return true;
}

static long all_requests = 0, all_refused = 0;

static void tried(const row *it)
{
    static peace all;
    make_in_peace(it, &all);
    long number = 1, refused = 0;
    while (try_one(it, number, &all, &refused))
        number++;
    drop(all.before);
    drop(all.done);
    all_requests += number - 1;
    all_refused += refused;
    if (it->before != a_desk_of_characters)
        printf("%s: %ld requests refused in turn, %ld times BIDIGRID_FAULT_MEMORY\n", it->name, number - 1, refused);
    /* Erasing one character asks for none, and so does typing one into most texts. */
    CHECK(number > 1 || it->call == erases || it->before == a_desk_of_characters ||
          ((it->call == types || it->call == inserts_one) && it->before == a_large_desk));
}

/* A message of so many characters at random, each typed at random, and a text of them. */
static bytes typed_at_random(uint32_t site, bytes *all)
{
    bidigrid_desk typist = BIDIGRID_NONE;
    uint8_t *at = all->at = malloc(4 * MANY);
    CHECK(at);
    CHECK(bidigrid_desk_new(&typist, site, 5, 6) == BIDIGRID_OK);
    for (size_t places = 0; places < MANY; places++) {
        uint32_t letter = random_letter();
        at = put_utf8(at, letter);
        CHECK(bidigrid_desk_type(&typist, below(places + 1), letter, out, sizeof out, &size) == BIDIGRID_OK);
    }
    all->size = (size_t)(at - all->at);
    bytes file = written(writes_file, &typist);
    bidigrid_desk_free(&typist);
    return file;
}

static const row ROWS[] = {
    {"bidigrid_tables_new", nothing, reads_tables, false},
    {"bidigrid_tables_unicode", nothing, makes_tables, false},
    {"bidigrid_picture_new", a_small_picture, draws, false},
    {"bidigrid_picture_print", nothing, prints, false},
    {"bidigrid_picture_row_print", nothing, prints_a_row, false},
    {"bidigrid_desk_new", a_large_desk, makes_a_desk, false},
    {"bidigrid_desk_type, a first character", a_fresh_desk, types, false},
    {"bidigrid_desk_type", a_large_desk, types, false},
    {"bidigrid_desk_erase", a_large_desk, erases, false},
    {"bidigrid_desk_erase, many", a_large_desk, erases_many, false},
    {"bidigrid_desk_insert, one character", a_large_desk, inserts_one, false},
    {"bidigrid_desk_insert", a_large_desk, inserts_many, false},
    {"bidigrid_desk_replace", a_large_desk, replaces_many, false},
    {"bidigrid_desk_take, by a fresh desk", a_fresh_desk, takes, true},
    {"bidigrid_desk_take", a_large_desk, takes, true},
    {"bidigrid_desk_open", a_fresh_desk, opens, false},
    {"bidigrid_desk_reserve", a_large_desk, reserves, false},
    {"bidigrid_desk_text", a_large_desk, reads, false},
    {"bidigrid_desk_file", a_large_desk, saves, false},
    {"bidigrid_desk_text, asked for its size", a_large_desk, asks_for_a_text, false},
    {"bidigrid_desk_file, asked for its size", a_large_desk, asks_for_a_file, false},
    {"bidigrid_desk_merge", two_large_desks, merges, true},
    {"bidigrid_document_new", a_shown_document, makes_a_document, false},
    {"bidigrid_document_open", a_shown_document, opens_a_document, false},
    {"bidigrid_document_insert, one character", a_shown_document, document_types, false},
    {"bidigrid_document_insert", a_shown_document, document_inserts, false},
    {"bidigrid_document_erase, one character", a_shown_document, document_erases_one, false},
    {"bidigrid_document_erase", a_shown_document, document_erases, false},
    {"bidigrid_document_replace", a_shown_document, document_replaces, false},
    {"bidigrid_document_take", a_shown_document, document_takes, true},
    {"bidigrid_document_merge", two_large_documents, document_meets, true},
    {"bidigrid_document_reserve", a_shown_document, document_reserves, false},
    {"bidigrid_document_show", a_large_document, document_shows, false},
    {"bidigrid_position_at", a_large_document, document_finds_a_place, true},
    {"bidigrid_position_under", a_large_document, document_points, true},
    {"bidigrid_position_down", a_shown_document, document_moves, true},
    {"bidigrid_document_print", a_shown_document, document_prints, false},
    {"bidigrid_document_row_print", a_shown_document, document_prints_a_row, false},
    {"bidigrid_document_text", a_shown_document, document_reads, false},
    {"bidigrid_document_file", a_shown_document, document_saves, false},
    {"bidigrid_document_text, asked for its size", a_large_document, document_asks_for_a_text, true},
    {"bidigrid_document_file, asked for its size", a_shown_document, document_asks_for_a_file, false},
};

/* While operations are spare, characters are typed and erased though all memory is refused. */
static void types_what_is_spare(void)
{
    a_large_desk();
    CHECK(bidigrid_desk_reserve(&desk, 2 * MANY) == BIDIGRID_OK && spare() >= 2 * MANY);
    CHECK(bidigrid_desk_length(&desk, &size) == BIDIGRID_OK && size >= 3 * MANY);
    puts("bidigrid_desk_type: what is spare is typed, though all memory is refused");
}

/* So they are at a document, which tells of each; its rows are laid out once there is memory again. */
static void document_types_what_is_spare(void)
{
    size_t places, left, count;
    bidigrid_change change;
    a_shown_document();
    CHECK(bidigrid_document_reserve(&document, 2 * MANY) == BIDIGRID_OK);
    CHECK(bidigrid_document_length(&document, &places) == BIDIGRID_OK);
    refuse_all();
    for (size_t number = 0; number < MANY; number++) {
        CHECK(document_types() == BIDIGRID_OK && size == BIDIGRID_TYPED_SIZE);
        CHECK(document_types() == BIDIGRID_OK && size == BIDIGRID_TYPED_SIZE);
        CHECK(bidigrid_document_changes(&document, &change, 1, &count) == BIDIGRID_OK && count == 1);
        CHECK(change.place == 7 && change.put && change.character == 0x5D0);
        CHECK(document_erases_one() == BIDIGRID_OK && size == BIDIGRID_ERASED_SIZE);
        CHECK(bidigrid_document_changes(&document, &change, 1, &count) == BIDIGRID_OK && count == 1);
        CHECK(change.place == 7 && !change.put && !change.character);
    }
    refuse_at(0);
    CHECK(bidigrid_document_length(&document, &left) == BIDIGRID_OK && left == places + MANY);
    bytes shown = (document_shows(), written(writes_window, &document));
    CHECK(shown.size > left);
    free(shown.at);
    puts("bidigrid_document_insert, one character: what is spare is typed, though all memory is refused");
}

int main(int count, char **words)
{
    size_t sizes = count > 1 ? strtoul(words[1], NULL, 10) : 300;
    seed_random(1);
    for (int number = 0; number < 2; number++)
        message[number] = typed_at_random((uint32_t)number + 3, &text[number]);
    for (size_t number = 0; number < sizeof ROWS / sizeof *ROWS; number++)
        tried(&ROWS[number]);
    const row into_texts = {"bidigrid_desk_type, into texts of many sizes", a_desk_of_characters, types_inside, false};
    for (characters = FEW; characters < FEW + sizes; characters++)
        tried(&into_texts);
    printf("%s: %zu\n", into_texts.name, sizes);
    types_what_is_spare();
    document_types_what_is_spare();
    printf("refused: %ld requests in turn, %ld times BIDIGRID_FAULT_MEMORY, else done\n", all_requests, all_refused);
    /* Some of them were for changes, and the operations were taken without telling them. */
    CHECK(all_lost > 0);
    bidigrid_desk_free(&desk);
    bidigrid_desk_free(&other);
    bidigrid_document_free(&document);
    bidigrid_document_free(&met);
    bidigrid_picture_free(&picture);
    bidigrid_tables_free(&tables);
    for (int number = 0; number < 2; number++) {
        free(message[number].at);
        free(text[number].at);
    }
    return 0;
}
