/* Threads that each have handles of their own: all do the same at once, and come to the same text and picture. */
#include "check.h"
#include <pthread.h>

#define THREADS 4
#define EDITS 300

static void send(bidigrid_desk *from, bidigrid_desk *to)
{
    uint8_t message[BIDIGRID_TYPED_SIZE];
    size_t places, size;
    bidigrid_taken told;
    CHECK(bidigrid_desk_length(from, &places) == BIDIGRID_OK);
    CHECK(bidigrid_desk_type(from, below(places + 1), random_letter(), message, sizeof message, &size) == BIDIGRID_OK);
    CHECK(bidigrid_desk_take(to, message, size, &told) == BIDIGRID_OK && told.taken == 1);
}

static void *works(void *result)
{
    bidigrid_tables tables = BIDIGRID_NONE;
    bidigrid_picture picture = BIDIGRID_NONE;
    bidigrid_desk one = BIDIGRID_NONE, other = BIDIGRID_NONE;
    bidigrid_document document = BIDIGRID_NONE;
    seed_random(1);
    CHECK(bidigrid_tables_unicode(&tables, false) == BIDIGRID_OK);
    CHECK(bidigrid_desk_new(&one, 1, 2, 3) == BIDIGRID_OK && bidigrid_desk_new(&other, 2, 3, 4) == BIDIGRID_OK);
    for (size_t edit = 0; edit < EDITS; edit++)
        send(edit % 2 ? &one : &other, edit % 2 ? &other : &one);
    CHECK(bidigrid_desk_merge(&one, &other) == BIDIGRID_OK);
    bytes text = written(writes_text, &one);
    CHECK(bidigrid_picture_new(&picture, &tables, 20, BIDIGRID_BASE_AUTO, chars(text), text.size) == BIDIGRID_OK);
    bytes file = written(writes_file, &one);
    CHECK(bidigrid_document_open(&document, &tables, 3, 20, BIDIGRID_BASE_AUTO, 4, 5, file.at, file.size, NULL) ==
          BIDIGRID_OK);
    bidigrid_tables_free(&tables);
    CHECK(bidigrid_document_show(&document, 0, 0, BIDIGRID_MAX_WINDOW_ROWS, NULL) == BIDIGRID_OK);
    bytes print = written(writes_print, &picture);
    CHECK(same_bytes(written(writes_window, &document), copied(print)));
    *(bytes *)result = print;
    free(text.at);
    free(file.at);
    bidigrid_document_free(&document);
    bidigrid_picture_free(&picture);
    bidigrid_desk_free(&one);
    bidigrid_desk_free(&other);
    return NULL;
}

int main(void)
{
    pthread_t threads[THREADS];
    bytes prints[THREADS];
    for (size_t number = 0; number < THREADS; number++)
        CHECK(!pthread_create(&threads[number], NULL, works, &prints[number]));
    for (size_t number = 0; number < THREADS; number++)
        CHECK(!pthread_join(threads[number], NULL));
    for (size_t number = 1; number < THREADS; number++)
        CHECK(prints[number].size == prints[0].size && !memcmp(prints[number].at, prints[0].at, prints[0].size));
    for (size_t number = 0; number < THREADS; number++)
        free(prints[number].at);
    printf("threads: %d at once, each with handles of its own, show the same\n", THREADS);
    return 0;
}
