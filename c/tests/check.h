/* What the tests share: a check that prints its line, numbers at random, files read whole, and what a desk, a document or a
 * picture answers as bytes. */
#ifndef CHECK_H
#define CHECK_H

#include "bidigrid.h"
#include <stdio.h>
#include <stdlib.h>
#include <string.h>

#define CHECK(holds)                                                              \
    do {                                                                          \
        if (!(holds)) {                                                           \
            fprintf(stderr, "%s:%d: not so: %s\n", __FILE__, __LINE__, #holds);   \
            exit(1);                                                              \
        }                                                                         \
    } while (0)

typedef struct bytes {
    uint8_t *at;
    size_t size;
} bytes;

static inline bytes read_file(const char *folder, const char *name)
{
    char path[512];
    CHECK(snprintf(path, sizeof path, "%s/%s", folder, name) < (int)sizeof path);
    FILE *file = fopen(path, "rb");
    if (!file) {
        perror(path);
        exit(1);
    }
    bytes all = {NULL, 0};
    for (;;) {
        all.at = realloc(all.at, all.size + 65536);
        CHECK(all.at);
        size_t got = fread(all.at + all.size, 1, 65536, file);
        all.size += got;
        if (!got)
            break;
    }
    CHECK(!ferror(file));
    fclose(file);
    return all;
}

static inline const uint8_t *utf8(const char *text)
{
    return (const uint8_t *)text;
}

/* Whether a buffer has just this text. */
static inline bool is_text(const void *buffer, size_t size, const char *text)
{
    return size == strlen(text) && !memcmp(buffer, text, size);
}

/* Numbers at random (xorshift64*): the same after each seed_random(seed). One sequence a thread. */
static _Thread_local uint64_t random_state;

static inline void seed_random(uint64_t seed)
{
    random_state = seed * 2 + 1;
}

/* A number below n. */
static inline size_t below(size_t n)
{
    random_state ^= random_state >> 12;
    random_state ^= random_state << 25;
    random_state ^= random_state >> 27;
    return (size_t)((random_state * UINT64_C(0x2545F4914F6CDD1D)) >> 33) % n;
}

/* A letter, a digit, a mark, an end of a line or a sign of some script. */
static inline uint32_t random_letter(void)
{
    static const uint32_t LETTERS[] = {'a', 'b', ' ', '\n', 0x5D0, 0x5D1, 0x627, '(', ')', '1', 0x301, 0x4E16, 0x1F44D};
    return LETTERS[below(sizeof LETTERS / sizeof *LETTERS)];
}

/* Appends a character in UTF-8, and returns where the next one goes. */
static inline uint8_t *put_utf8(uint8_t *at, uint32_t character)
{
    if (character < 0x80) {
        *at++ = (uint8_t)character;
        return at;
    }
    int more = character < 0x800 ? 1 : character < 0x10000 ? 2 : 3;
    static const uint8_t FIRST[] = {0, 0xC0, 0xE0, 0xF0};
    *at++ = (uint8_t)(FIRST[more] | character >> 6 * more);
    while (more-- > 0)
        *at++ = (uint8_t)(0x80 | (character >> 6 * more & 0x3F));
    return at;
}

/* All that a call writes that asks for room: its size first, then its bytes. */
typedef uint32_t (*writes)(const void *handle, void *out, size_t room, size_t *size);

static inline bytes written(writes call, const void *handle)
{
    bytes all = {NULL, 0};
    uint32_t answer = call(handle, NULL, 0, &all.size);
    CHECK(answer == (all.size ? BIDIGRID_FAULT_SHORT_BUFFER : BIDIGRID_OK));
    all.at = malloc(all.size + 1);
    CHECK(all.at && call(handle, all.at, all.size, &all.size) == BIDIGRID_OK);
    return all;
}

static inline uint32_t writes_text(const void *desk, void *out, size_t room, size_t *size)
{
    return bidigrid_desk_text(desk, out, room, size);
}

static inline uint32_t writes_file(const void *desk, void *out, size_t room, size_t *size)
{
    return bidigrid_desk_file(desk, out, room, size);
}

static inline uint32_t writes_document_text(const void *document, void *out, size_t room, size_t *size)
{
    return bidigrid_document_text(document, out, room, size);
}

static inline uint32_t writes_document_file(const void *document, void *out, size_t room, size_t *size)
{
    return bidigrid_document_file(document, out, room, size);
}

static inline uint32_t writes_window(const void *document, void *out, size_t room, size_t *size)
{
    return bidigrid_document_print(document, out, room, size);
}

static inline uint32_t writes_print(const void *picture, void *out, size_t room, size_t *size)
{
    return bidigrid_picture_print(picture, out, room, size);
}

static inline const char *chars(bytes text)
{
    return (const char *)text.at;
}

static inline bytes copied(bytes all)
{
    bytes copy = {malloc(all.size + 1), all.size};
    CHECK(copy.at);
    if (all.size)
        memcpy(copy.at, all.at, all.size);
    return copy;
}

/* Frees both, and returns whether they are the same bytes. */
static inline bool same_bytes(bytes one, bytes other)
{
    bool same = one.size == other.size && !memcmp(one.at, other.at, one.size);
    free(one.at);
    free(other.at);
    return same;
}

#endif
