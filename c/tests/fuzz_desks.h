/* The fuzzer's calls at two desks. What an edit makes of a text is compared with what a list of bytes says, and desks that
 * have met with each other. */
#ifndef FUZZ_DESKS_H
#define FUZZ_DESKS_H

#include "frames.h"

static bidigrid_desk desks[2] = {BIDIGRID_NONE, BIDIGRID_NONE};

/* Whether a desk has no counter or no operation left. */
static bool is_spent(uint32_t answer)
{
    return IS_ONE_OF(answer, BIDIGRID_FAULT_COUNTER_SPENT, BIDIGRID_FAULT_FULL);
}

/* What a desk may answer where it takes of another one. */
static bool is_taken(uint32_t answer)
{
    return IS_ONE_OF(answer, BIDIGRID_OK, BIDIGRID_FAULT_IDENTIFIER_REUSED, BIDIGRID_FAULT_FULL,
                     BIDIGRID_FAULT_EMPTY_HANDLE);
}

/* One of the two desks, which may be empty. */
static bidigrid_desk *some_desk(input *from)
{
    return &desks[next(from) & 1];
}

static bidigrid_desk *other_than(const bidigrid_desk *desk)
{
    return desk == &desks[0] ? &desks[1] : &desks[0];
}

static void makes_a_desk(input *from)
{
    bidigrid_desk *desk = some_desk(from);
    uint32_t site = next(from) % 8;
    site = site < 4 ? site : site == 4 ? BIDIGRID_MAX_SITE : site * 16384;
    bool is_site = site > 0 && site <= BIDIGRID_MAX_SITE;
    void *held = desk->held;
    uint32_t answer = bidigrid_desk_new(desk, site, next(from), 2);
    CHECK(answer == (is_site ? BIDIGRID_OK : BIDIGRID_FAULT_BAD_SITE) && (is_site || desk->held == held));
}

/* Takes a message twice: the second time nothing is new. */
static uint32_t takes_twice(bidigrid_desk *desk, bytes message, bidigrid_taken *told)
{
    uint32_t answer = bidigrid_desk_take(desk, message.at, message.size, told);
    if (answer == BIDIGRID_OK) {
        bidigrid_taken again;
        bytes text = written(writes_text, desk);
        CHECK(bidigrid_desk_take(desk, message.at, message.size, &again) == BIDIGRID_OK);
        CHECK(again.operations == told->operations && again.taken == told->taken);
        CHECK(same_bytes(text, written(writes_text, desk)));
    }
    return answer;
}

static void takes_bytes(input *from)
{
    bidigrid_taken told;
    bidigrid_desk *desk = some_desk(from);
    uint32_t answer = takes_twice(desk, next_bytes(from), &told);
    CHECK(answer != BIDIGRID_FAULT_EMPTY_HANDLE || !desk->held);
}

static void takes_a_message(input *from)
{
    bidigrid_taken told;
    bidigrid_desk *desk = some_desk(from);
    made it = make_message(from);
    uint32_t answer = takes_twice(desk, it.bytes, &told);
    if (!desk->held)
        CHECK(answer == BIDIGRID_FAULT_EMPTY_HANDLE);
    else if (it.fault)
        CHECK(answer == it.fault && told.frame == it.frame && told.operations == 0 && told.taken == 0);
    else
        CHECK(IS_ONE_OF(answer, BIDIGRID_OK, BIDIGRID_FAULT_IDENTIFIER_REUSED, BIDIGRID_FAULT_FULL) &&
              told.operations == it.operations &&
              (answer ? told.taken < told.operations : told.taken == told.operations));
    free(it.bytes.at);
}

/* Where the character at a place begins in a text. */
static size_t byte_of(bytes text, size_t place)
{
    size_t at = 0;
    for (; at < text.size && place > 0; at++)
        place -= at + 1 == text.size || (text.at[at + 1] & 0xC0) != 0x80;
    return at;
}

/* Checks that a desk has a text in which some characters were replaced. */
static void is_spliced(bidigrid_desk *desk, bytes before, size_t from, size_t to, bytes typed)
{
    size_t first = byte_of(before, from), last = byte_of(before, to);
    bytes wanted = {malloc(before.size + typed.size + 1), before.size - (last - first) + typed.size};
    CHECK(wanted.at);
    memcpy(wanted.at, before.at, first);
    memcpy(wanted.at + first, typed.at, typed.size);
    memcpy(wanted.at + first + typed.size, before.at + last, before.size - last);
    CHECK(same_bytes(wanted, written(writes_text, desk)));
}

/* The message of an edit does at another desk what it did here, where that desk has all else. */
static void sends(bidigrid_desk *desk, bytes message)
{
    bidigrid_taken told;
    bidigrid_desk *other = other_than(desk);
    uint32_t answer = bidigrid_desk_take(other, message.at, message.size, &told);
    CHECK(is_taken(answer));
}

static void types(input *from)
{
    uint8_t message[BIDIGRID_TYPED_SIZE], utf8[4];
    bidigrid_desk *desk = some_desk(from);
    size_t place = next_number(from), places = 0, room = next(from) % 32, size = 0;
    seed_random(next_number(from));
    uint32_t character = next(from) % 8 ? random_character() : (uint32_t)below(0x120000);
    bool is_scalar = character < 0xD800 || (character > 0xDFFF && character < 0x110000);
    bytes before = {NULL, 0};
    if (desk->held) {
        before = written(writes_text, desk);
        CHECK(bidigrid_desk_length(desk, &places) == BIDIGRID_OK);
        place %= places + 2;
    }
    room = room < sizeof message ? room : sizeof message;
    uint32_t answer = bidigrid_desk_type(desk, place, character, message, room, &size);
    if (answer == BIDIGRID_OK) {
        bytes typed = {utf8, (size_t)(put_utf8(utf8, character) - utf8)};
        CHECK(is_scalar && size == sizeof message && place <= places);
        is_spliced(desk, before, place, place, typed);
        sends(desk, (bytes){message, size});
    } else {
        CHECK(!desk->held             ? answer == BIDIGRID_FAULT_EMPTY_HANDLE
              : !is_scalar            ? answer == BIDIGRID_FAULT_BAD_CHARACTER
              : place > places        ? answer == BIDIGRID_FAULT_BAD_PLACE
              : room < sizeof message ? answer == BIDIGRID_FAULT_SHORT_BUFFER
                                      : is_spent(answer));
    }
    free(before.at);
}

/* Erases a range, types a text, or replaces a range by one, by the call that is for it; with a buffer that is as
 * long as it has to be, or that isn't there. */
static uint32_t edit(bidigrid_desk *desk, size_t first, size_t last, bytes text, bytes *message)
{
    if (!text.size)
        return bidigrid_desk_erase(desk, first, last, message->at, message->size, &message->size);
    if (first == last)
        return bidigrid_desk_insert(desk, first, chars(text), text.size, message->at, message->size, &message->size);
    return bidigrid_desk_replace(desk, first, last, chars(text), text.size, message->at, message->size, &message->size);
}

static void replaces(input *from)
{
    bidigrid_desk *desk = some_desk(from);
    bytes text = next(from) % 4 ? make_text(from) : (bytes){malloc(1), 0};
    size_t first = next_number(from), last = next(from) % 4 ? first + next(from) : first, places = 0;
    bytes before = {NULL, 0}, message = {NULL, 0};
    if (desk->held) {
        before = written(writes_text, desk);
        CHECK(bidigrid_desk_length(desk, &places) == BIDIGRID_OK);
        first %= places + 1;
        last = last < places + 2 ? last : places;
    }
    uint32_t answer = edit(desk, first, last, text, &message);
    CHECK(is_spent(answer) || IS_ONE_OF(answer, BIDIGRID_FAULT_EMPTY_HANDLE, BIDIGRID_FAULT_NOT_UTF8,
                                        BIDIGRID_FAULT_BAD_PLACE, BIDIGRID_FAULT_SHORT_BUFFER));
    CHECK(answer != BIDIGRID_FAULT_BAD_PLACE || first > last || last > places);
    if (answer == BIDIGRID_FAULT_SHORT_BUFFER) {
        CHECK(first <= last && last <= places && message.size >= 5 + 9 * (last - first));
        message.at = malloc(message.size);
        CHECK(message.at);
        answer = edit(desk, first, last, text, &message);
        CHECK(answer == BIDIGRID_OK || is_spent(answer));
    }
    if (answer == BIDIGRID_OK) {
        is_spliced(desk, before, first, last, text);
        sends(desk, message);
    } else
        CHECK(!desk->held || same_bytes(written(writes_text, desk), copied(before)));
    free(before.at);
    free(message.at);
    free(text.at);
}

/* Two desks that have met have one text and length, and save files that make a new desk the same. */
static void meets(input *from)
{
    bidigrid_desk *one = some_desk(from), *other = other_than(one), newcomer = BIDIGRID_NONE;
    bidigrid_taken told;
    CHECK(bidigrid_desk_merge(one, one) == (one->held ? BIDIGRID_OK : BIDIGRID_FAULT_EMPTY_HANDLE));
    uint32_t answer = bidigrid_desk_merge(one, other);
    CHECK(is_taken(answer));
    if (answer || bidigrid_desk_merge(other, one))
        return;
    CHECK(same_bytes(written(writes_text, one), written(writes_text, other)));
    bytes saved = written(writes_file, one);
    CHECK(bidigrid_desk_open(&newcomer, 9, 1, 2, saved.at, saved.size, &told) == BIDIGRID_OK);
    CHECK(told.taken == told.operations && told.frame == 0);
    CHECK(same_bytes(written(writes_text, one), written(writes_text, &newcomer)));
    free(saved.at);
    bidigrid_desk_free(&newcomer);
}

/* An identifier leads to its place. */
static void asks(input *from)
{
    bidigrid_desk *desk = some_desk(from);
    bidigrid_id id = {0, 0}, any = {next_number(from), next(from)};
    size_t place = next_number(from), places = 0, found = 0;
    uint32_t answer = bidigrid_desk_place_of(desk, &any, &found);
    CHECK(IS_ONE_OF(answer, BIDIGRID_OK, BIDIGRID_FAULT_EMPTY_HANDLE, BIDIGRID_FAULT_BAD_IDENTIFIER,
                    BIDIGRID_FAULT_NOT_PLACED));
    if (bidigrid_desk_length(desk, &places))
        return;
    place %= places + 1;
    answer = bidigrid_desk_id_at(desk, place, &id);
    CHECK(answer == (place < places ? BIDIGRID_OK : BIDIGRID_FAULT_BAD_PLACE));
    if (answer == BIDIGRID_OK)
        CHECK(bidigrid_desk_place_of(desk, &id, &found) == BIDIGRID_OK && found == place);
}

static void reserves(input *from)
{
    bidigrid_desk *desk = some_desk(from);
    size_t operations = next(from) ? next_number(from) : BIDIGRID_MAX_OPERATIONS + 1;
    CHECK(bidigrid_desk_reserve(desk, operations) == (!desk->held ? BIDIGRID_FAULT_EMPTY_HANDLE
                                                      : operations > BIDIGRID_MAX_OPERATIONS ? BIDIGRID_FAULT_TOO_MANY
                                                                                             : BIDIGRID_OK));
}

#endif
