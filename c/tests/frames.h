/* What the fuzzer makes of its bytes: numbers, texts, and messages (docs/FORMATS.md) that are sound, or sound but for
 * one thing. */
#ifndef FRAMES_H
#define FRAMES_H

#include "check.h"

#define MOST_TEXT 100000

static inline bool is_one_of(uint32_t answer, const uint32_t *some, size_t count)
{
    for (size_t at = 0; at < count; at++)
        if (answer == some[at])
            return true;
    return false;
}

#define IS_ONE_OF(answer, ...)                                                                                         \
    is_one_of(answer, (const uint32_t[]){__VA_ARGS__}, sizeof((const uint32_t[]){__VA_ARGS__}) / sizeof(uint32_t))

typedef struct input {
    const uint8_t *at;
    size_t left;
} input;

static inline uint8_t next(input *from)
{
    if (!from->left)
        return 0;
    from->left--;
    return *from->at++;
}

/* A number of two bytes. */
static inline uint16_t next_number(input *from)
{
    uint8_t high = next(from);
    return (uint16_t)(high << 8 | next(from));
}

/* The next bytes, as many as the two before them say. They stay the fuzzer's. */
static inline bytes next_bytes(input *from)
{
    size_t size = next_number(from);
    if (size > from->left)
        size = from->left;
    bytes all = {(uint8_t *)from->at, size};
    from->at += size;
    from->left -= size;
    return all;
}

/* A Unicode scalar: most often a letter of a few scripts. */
static inline uint32_t random_character(void)
{
    if (below(8))
        return random_letter();
    uint32_t any = (uint32_t)below(0x110000 - 0x800);
    return any < 0xD800 ? any : any + 0x800;
}

/* A text: any bytes, or characters at random, mostly few, now and then up to MOST_TEXT bytes of them. */
static inline bytes make_text(input *from)
{
    uint8_t how = next(from);
    if (how % 4 == 0)
        return copied(next_bytes(from));
    size_t most = how % 64 == 1 ? MOST_TEXT : how % 16 == 2 ? 3000 : how;
    bytes all = {malloc(most + 4), 0};
    CHECK(all.at);
    seed_random(next_number(from));
    while (all.size + 4 <= most)
        all.size = (size_t)(put_utf8(all.at + all.size, random_character()) - all.at);
    return all;
}

/* A message, its operations, and what is wrong in it: a fault and its frame, or 0. */
typedef struct made {
    bytes bytes;
    size_t operations, frame;
    uint32_t fault;
} made;

static inline void put_number(bytes *to, size_t number, int width)
{
    while (width-- > 0)
        to->at[to->size++] = (uint8_t)(number >> 8 * width);
}

/* A frame before it is written. */
typedef struct frame {
    size_t length, kind, counter, site, parent_counter, parent_site, characters;
    uint32_t first;
} frame;

static inline void put_frame(bytes *to, const frame *it)
{
    put_number(to, it->length, 2);
    put_number(to, it->kind, 1);
    put_number(to, it->counter, 4);
    put_number(to, it->site, 2);
    if (it->kind == 2)
        return;
    put_number(to, it->parent_counter, 4);
    put_number(to, it->parent_site, 2);
    for (size_t number = 0; number < it->characters; number++)
        put_number(to, number ? 'a' + number % 26 : it->first, 4);
}

/* A sound frame: an insertion, a deletion, or in version 2 a run. `joined` has the identifier that the next insertion
 * would join, which it mustn't. */
static inline frame make_frame(input *from, uint8_t version, const frame *before)
{
    frame it = {0, 1 + next(from) % (version + 1u), 1 + next(from) % 24u, 1 + next(from) % 3u, 0, 0, 1, 'x'};
    seed_random(next_number(from));
    it.first = random_character();
    if (it.kind == 3)
        it.characters = 2 + next(from) % 9u;
    it.parent_counter = next(from) % it.counter;
    it.parent_site = it.parent_counter ? 1 + next(from) % 3u : 0;
    size_t last = before->counter + before->characters - 1;
    if (version == 2 && before->kind != 2 && it.kind != 2 && it.site == before->site && it.counter == last + 1 &&
        it.parent_counter == last && it.parent_site == before->site)
        it.parent_counter = it.parent_site = 0;
    it.length = it.kind == 2 ? 7 : 13 + 4 * it.characters;
    return it;
}

/* Puts one thing wrong in a sound frame, and returns the fault that it then has. */
static inline uint32_t spoil(input *from, frame *it, uint8_t version)
{
    bool inserts = it->kind != 2;
    switch (next(from) % 8) {
    case 0:
        it->kind = version == 1 ? 3 : 4;
        return BIDIGRID_FAULT_UNKNOWN_KIND;
    case 1:
        it->length += 1 + next(from) % 3u;
        return BIDIGRID_FAULT_BAD_LENGTH;
    case 2:
        it->counter = 0;
        return BIDIGRID_FAULT_ZERO_FIELD;
    case 3:
        it->site = 0;
        return BIDIGRID_FAULT_ZERO_FIELD;
    case 4:
        if (inserts && it->parent_counter)
            it->parent_site = 0;
        else
            it->site = 0;
        return BIDIGRID_FAULT_ZERO_FIELD;
    case 5:
        if (!inserts)
            break;
        it->parent_counter = it->counter + next(from) % 3u;
        it->parent_site = 1;
        return BIDIGRID_FAULT_PARENT_NOT_BEFORE;
    case 6:
        if (!inserts)
            break;
        it->first = next(from) & 1 ? 0xD800 + next(from) : 0x110000;
        return BIDIGRID_FAULT_NOT_A_SCALAR;
    default:
        if (it->kind != 3)
            break;
        it->counter = UINT32_MAX - it->characters + 2;
        return BIDIGRID_FAULT_COUNTER_OVERFLOW;
    }
    it->counter = 0;
    return BIDIGRID_FAULT_ZERO_FIELD;
}

/* A header that isn't one, or a message that ends inside of a frame. */
static inline void spoil_whole(input *from, made *it)
{
    uint8_t how = next(from) % 4;
    it->frame = 0;
    if (how == 0) {
        it->bytes.at[next(from) % 4] ^= 1;
        it->fault = BIDIGRID_FAULT_BAD_MAGIC;
    } else if (how == 1) {
        it->bytes.at[4] = (uint8_t)(3 + next(from) % 250);
        it->fault = BIDIGRID_FAULT_BAD_VERSION;
    } else {
        it->bytes.size = next(from) % 5;
        it->fault = BIDIGRID_FAULT_TRUNCATED;
    }
}

static inline made make_message(input *from)
{
    uint8_t version = 1 + next(from) % 2, frames = next(from) % 8, how = next(from);
    made it = {{malloc(5 + 8 * 64u), 0}, 0, 0, BIDIGRID_OK};
    CHECK(it.bytes.at);
    memcpy(it.bytes.at, (const uint8_t[]){'B', 'G', 'O', 'P', version}, 5);
    it.bytes.size = 5;
    frame before = {0, 2, 0, 0, 0, 0, 1, 0};
    for (size_t number = 1; number <= frames && !it.fault; number++) {
        frame made = make_frame(from, version, &before);
        size_t begin = it.bytes.size;
        before = made;
        if (number == frames && how % 4 == 1) {
            it.fault = spoil(from, &made, version);
            it.frame = number;
        }
        put_frame(&it.bytes, &made);
        if (number == frames && how % 4 == 2) {
            it.bytes.size = begin + 1 + next(from) % (it.bytes.size - begin - 1);
            it.fault = BIDIGRID_FAULT_TRUNCATED;
            it.frame = number;
        }
        it.operations += before.kind == 3 ? before.characters : 1;
    }
    if (how % 32 == 3)
        spoil_whole(from, &it);
    return it;
}

#endif
