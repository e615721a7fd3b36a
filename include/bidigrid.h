/*
 * bidigrid: mixed Hebrew, Arabic and Latin text on a grid of character cells.
 *
 * bidigrid_document  one copy of a text that several write, laid out in rows of cells: what an editor holds
 * bidigrid_tables    what Unicode says of each character
 * bidigrid_picture   a text laid out in rows of cells: what a chat tool or a terminal shows
 * bidigrid_desk      one copy of a text that several write, and no more
 *
 * Handles. A handle begins as { 0 }, BIDIGRID_NONE, and is passed by its address. `new` fills it, `free` empties it;
 * a handle that is empty may be freed again, and one that is full may be made anew, which frees what it held. It may
 * move in memory, as by realloc, but don't copy it, and don't touch what `held` points to. NULL counts as an empty
 * handle, but can't be filled.
 *
 * Answers. Each call whose result is a uint32_t answers 0, BIDIGRID_OK, or the number of a fault; bidigrid_version
 * alone answers its number. After a fault each handle holds what it held before, where the call doesn't say more, and
 * one that was empty is empty.
 *
 * Out values. They are written on every way out: what was asked for, or zeros after a fault. NULL may be passed
 * for what isn't wanted. A caret or position that is moved is read first; it stays as it was after a fault.
 *
 * Buffers. A call that writes bytes is given a buffer and its length, and writes to `*size` how many bytes there are.
 * Where the buffer is too short nothing is written, and the answer is BIDIGRID_FAULT_SHORT_BUFFER with the size that
 * is wanted; so ask with NULL and 0 first. Where there are no bytes at all, as of an empty text, that is answered
 * with BIDIGRID_OK and 0. After every other fault the size is 0. What is read may also be NULL where its length is 0.
 *
 * Places count code points from 0, rows from the top, columns and entries from the left; bytes count bytes of UTF-8.
 * Numbers aren't narrowed on their way in: a width, a base or a site out of range is a fault.
 *
 * What the library can't see is up to you:
 * - Every other pointer leads to what its type says, and is not NULL; what it leads to need not have been written,
 *   where the library only writes. A bool is 0 or 1.
 * - What one call is given doesn't overlap, but for bytes that are only read. The one handle that may be passed twice
 *   is that of a document or desk which is merged with itself.
 * - A handle, and tables together with all pictures and documents that are drawn by them, stay on the thread that made
 *   them: no lock makes it safe to use them from another one. A call empties its handles for its time, those that only
 *   read too, though they take const handles: a handle itself must not be const.
 * - No call comes from a signal handler, or in the child of a fork of a process that had more threads than one.
 * - malloc, realloc and free are those of one allocator, which aligns what it gives to 16 bytes; a size_t has 64
 *   bits.
 */
#ifndef BIDIGRID_H
#define BIDIGRID_H

#include <stdbool.h>
#include <stddef.h>
#include <stdint.h>

#ifdef __cplusplus
extern "C" {
#endif

#define BIDIGRID_NONE { 0 }

/* The widths, in columns; the longest text that is drawn, and the longest message that is read, in bytes; the greatest
 * site; and the most operations that a desk may have, deletions included. */
#define BIDIGRID_MIN_WIDTH 2
#define BIDIGRID_MAX_WIDTH 500
#define BIDIGRID_MAX_TEXT_SIZE 4000000
#define BIDIGRID_MAX_MESSAGE_SIZE 67108864
#define BIDIGRID_MAX_SITE 65535
#define BIDIGRID_MAX_OPERATIONS 1000000

/* What the calls answer. */
enum {
    BIDIGRID_OK = 0,
    BIDIGRID_FAULT_MEMORY = 9,               /* malloc or realloc answered NULL */
    BIDIGRID_FAULT_EMPTY_HANDLE = 101,       /* a handle holds nothing */
    BIDIGRID_FAULT_SHORT_BUFFER = 102,       /* the buffer is too short; the size that is wanted is written */
    BIDIGRID_FAULT_NOT_UTF8 = 103,           /* the text's bytes are not UTF-8 */
    BIDIGRID_FAULT_TEXT_TOO_LONG = 104,      /* the text has more than BIDIGRID_MAX_TEXT_SIZE bytes */
    BIDIGRID_FAULT_BAD_WIDTH = 105,          /* the width is not BIDIGRID_MIN_WIDTH to BIDIGRID_MAX_WIDTH */
    BIDIGRID_FAULT_BAD_BASE = 106,           /* the base is none of the three */
    BIDIGRID_FAULT_BAD_PLACE = 107,          /* the place lies behind the text's end, or behind where it should end */
    BIDIGRID_FAULT_BAD_ROW = 108,            /* there is no such row, or too many are to be shown */
    BIDIGRID_FAULT_BAD_ENTRY = 109,          /* the row has no such entry */
    BIDIGRID_FAULT_BAD_CARET = 110,          /* there is no such row, or the row has no such gap */
    BIDIGRID_FAULT_BAD_CHARACTER = 111,      /* the character is no Unicode scalar */
    BIDIGRID_FAULT_BAD_SITE = 112,           /* the site is not 1 to BIDIGRID_MAX_SITE */
    BIDIGRID_FAULT_BAD_IDENTIFIER = 113,     /* the identifier's counter is 0, or its site none */
    BIDIGRID_FAULT_NOT_PLACED = 114,         /* the desk has no such character yet */
    BIDIGRID_FAULT_TOO_MANY = 115,           /* more than BIDIGRID_MAX_OPERATIONS operations or rows are asked for */
    BIDIGRID_FAULT_MESSAGE_TOO_LONG = 116,   /* a message: more than BIDIGRID_MAX_MESSAGE_SIZE bytes; it is not read */
    BIDIGRID_FAULT_IDENTIFIER_REUSED = 201,  /* an operation: its identifier is there with another parent or character */
    BIDIGRID_FAULT_FULL = 202,               /* there would be more than BIDIGRID_MAX_OPERATIONS operations */
    BIDIGRID_FAULT_COUNTER_SPENT = 203,      /* the next counter is above 4294967295 */
    BIDIGRID_FAULT_BAD_MAGIC = 301,          /* a message: it begins with other bytes than BGOP */
    BIDIGRID_FAULT_BAD_VERSION = 302,        /* a version other than 1 and 2 */
    BIDIGRID_FAULT_TRUNCATED = 303,          /* a byte is missing */
    BIDIGRID_FAULT_UNKNOWN_KIND = 304,       /* a frame of another kind */
    BIDIGRID_FAULT_BAD_LENGTH = 305,         /* a length that isn't that of its kind */
    BIDIGRID_FAULT_ZERO_FIELD = 306,         /* a counter or a site is 0 */
    BIDIGRID_FAULT_PARENT_NOT_BEFORE = 307,  /* the parent's counter isn't below the insertion's */
    BIDIGRID_FAULT_NOT_A_SCALAR = 308,       /* a character that is no Unicode scalar */
    BIDIGRID_FAULT_COUNTER_OVERFLOW = 310,   /* the last counter of a run is above 4294967295 */
    BIDIGRID_FAULT_NOT_JOINED = 311,         /* an insertion that belongs to the run before it */
    BIDIGRID_FAULT_BAD_UTF8 = 401,           /* a data file: bytes that are not UTF-8 */
    BIDIGRID_FAULT_BAD_CODE = 402,           /* a code that is none */
    BIDIGRID_FAULT_BAD_RANGE = 403,          /* a range whose first code is above its last */
    BIDIGRID_FAULT_MISSING_FIELD = 404,      /* a field is missing or empty */
    BIDIGRID_FAULT_UNKNOWN_VALUE = 405       /* a value that the file may not have */
};

/* The name of an answer, as "ShortBuffer", "Ok" of BIDIGRID_OK and "Unknown" of what no call answers: at most 32 bytes
 * with the zero at its end. It is there for good, and is not to be freed. */
const char *bidigrid_fault_name(uint32_t answer);

/* The version of this header, and that of the Unicode Standard which it lays out by. */
#define BIDIGRID_VERSION_MAJOR 0
#define BIDIGRID_VERSION_MINOR 2
#define BIDIGRID_VERSION_PATCH 0
#define BIDIGRID_VERSION_STRING "0.2.0"
#define BIDIGRID_VERSION (10000 * BIDIGRID_VERSION_MAJOR + 100 * BIDIGRID_VERSION_MINOR + BIDIGRID_VERSION_PATCH)
#define BIDIGRID_UNICODE_VERSION "15.0"

/* The version of the library, by which BIDIGRID_VERSION counts. */
uint32_t bidigrid_version(void);

/* ---- Tables ---- */

typedef struct bidigrid_tables {
    struct bidigrid_opaque *held;
} bidigrid_tables;

/* The tables of Unicode 15.0, which come inside the library. Characters of ambiguous width (East_Asian_Width A) are
 * wide or narrow. It reads the files that come inside the library, so make them once. */
uint32_t bidigrid_tables_unicode(bidigrid_tables *out, bool wide_ambiguous);

/* Bytes that are only read. */
typedef struct bidigrid_bytes {
    const void *bytes;
    size_t size;
} bidigrid_bytes;

/* The five data files, by their indices in the list that is handed in: DerivedBidiClass.txt, BidiBrackets.txt,
 * BidiMirroring.txt, LineBreak.txt and EastAsianWidth.txt. */
enum {
    BIDIGRID_DATA_BIDI_CLASS = 0,
    BIDIGRID_DATA_BRACKETS = 1,
    BIDIGRID_DATA_MIRRORING = 2,
    BIDIGRID_DATA_LINE_BREAK = 3,
    BIDIGRID_DATA_EAST_ASIAN_WIDTH = 4,
    BIDIGRID_DATA_FILES = 5
};

/* Where a data file is faulty: one more than its index in the list, and the line from 1; else 0 and 0. */
typedef struct bidigrid_data_fault {
    size_t line;
    uint32_t file;
} bidigrid_data_fault;

/* The tables of your own data files. A fault of theirs is 401 to 405, and `*fault` says where. */
uint32_t bidigrid_tables_new(bidigrid_tables *out, const bidigrid_bytes files[BIDIGRID_DATA_FILES],
                             bool wide_ambiguous, bidigrid_data_fault *fault);

/* Tables may be freed before the pictures and documents that are drawn by them. */
void bidigrid_tables_free(bidigrid_tables *tables);

/* ---- Pictures ---- */

typedef struct bidigrid_picture {
    struct bidigrid_opaque *held;
} bidigrid_picture;

/* The direction of each paragraph: by its first strong letter, left to right, or right to left. */
enum { BIDIGRID_BASE_AUTO = 0, BIDIGRID_BASE_LEFT_TO_RIGHT = 1, BIDIGRID_BASE_RIGHT_TO_LEFT = 2 };

/* Lays a text in UTF-8 out in rows of `width` columns. The picture has a copy of the text, and a share in the
 * tables. */
uint32_t bidigrid_picture_new(bidigrid_picture *out, const bidigrid_tables *tables, uint32_t width, uint32_t base,
                              const char *text, size_t text_size);
void bidigrid_picture_free(bidigrid_picture *picture);

/* How many rows there are, at least one. */
uint32_t bidigrid_picture_rows(const bidigrid_picture *picture, size_t *rows);

typedef struct bidigrid_row {
    size_t first_place; /* the place of its first code point */
    size_t last_place;  /* the place behind its last one, a line feed included */
    size_t entries;     /* how many entries it has */
    size_t column;      /* the column where they begin */
    uint32_t level;     /* of its paragraph: 0 from left to right, 1 from right to left */
} bidigrid_row;

uint32_t bidigrid_picture_row(const bidigrid_picture *picture, size_t row, bidigrid_row *out);

/* An entry is a cluster, as a letter with its marks, where it is seen. Its bytes and places are those of the text:
 * what is shown of it, mirrored where its level is odd, as ( for ), stands in the row's print. There each column
 * before the first entry is one space; an entry without columns has nothing; one that begins with a tab has a space
 * for each column; and any other has as many code points as places. bidigrid_picture_entry_sizes counts their bytes. */
typedef struct bidigrid_entry {
    uint32_t first_byte;
    uint32_t end_byte;
    uint32_t first_place;
    uint32_t end_place;
    uint32_t column;  /* of its first cell */
    uint32_t level;   /* odd: read from right to left */
    uint32_t columns; /* 0 to 2 cells */
} bidigrid_entry;

uint32_t bidigrid_picture_entry(const bidigrid_picture *picture, size_t row, size_t entry, bidigrid_entry *out);

/* All entries of a row from left to right, into a list with room for as many as `room` says. `*count` is how many
 * there are, also where the answer is BIDIGRID_FAULT_SHORT_BUFFER and no entry was written. */
uint32_t bidigrid_picture_entries(const bidigrid_picture *picture, size_t row, bidigrid_entry *entries, size_t room,
                                  size_t *count);

/* The cells of a row from left to right in UTF-8, mirrored where they are read from right to left, and a line feed.
 * Show them as they are: a terminal that reorders Hebrew and Arabic by itself has to be asked not to. */
uint32_t bidigrid_picture_row_print(const bidigrid_picture *picture, size_t row, char *out, size_t room,
                                    size_t *size);

/* The prints of all rows, one after the other: a whole screen in one call. */
uint32_t bidigrid_picture_print(const bidigrid_picture *picture, char *out, size_t room, size_t *size);

/* How many bytes the cells of each entry of a row have in the row's print, into a list beside that of its entries. They
 * stand there side by side: those of the first entry begin at byte `column` of the row, all others where the ones before
 * them end. */
uint32_t bidigrid_picture_entry_sizes(const bidigrid_picture *picture, size_t row, size_t *sizes, size_t room,
                                      size_t *count);

/* A caret stands in a gap of a row: gap g left of entry g, the last gap right of the last entry. Its place is where
 * the next character goes; a gap where two directions meet has two, and a caret that went right or left has the one
 * beside the entry that it passed. It is seen at the column of entry g; in the last gap behind the cells of the last
 * entry, which may be at the width; and at the column of the row where that has no entries. */
typedef struct bidigrid_caret {
    size_t row;
    size_t gap;
    size_t place;
} bidigrid_caret;

/* The caret at a place, 0 to the text's length; where the place lies inside a cluster, at the cluster's first place. So
 * the cluster before a place, which a backspace there erases, begins at the `place` of the caret one place before. */
uint32_t bidigrid_caret_at(const bidigrid_picture *picture, size_t place, bidigrid_caret *out);

/* The caret where a mouse points: in this row, the last gap that isn't right of the column; gap 0 where all are. */
uint32_t bidigrid_caret_under(const bidigrid_picture *picture, size_t row, size_t column, bidigrid_caret *out);

/* Moves a caret one step as the eye sees it. Its row and gap decide. Where there is no further step, at an end of the
 * text, at the first row or at the last one, it stays all as it is, a wrong place included. */
uint32_t bidigrid_caret_right(const bidigrid_picture *picture, bidigrid_caret *caret);
uint32_t bidigrid_caret_left(const bidigrid_picture *picture, bidigrid_caret *caret);
uint32_t bidigrid_caret_up(const bidigrid_picture *picture, bidigrid_caret *caret);
uint32_t bidigrid_caret_down(const bidigrid_picture *picture, bidigrid_caret *caret);

/* ---- Messages ---- */

/* A text that several write is a set of operations, each the insertion or the deletion of one character. Copies
 * that have the same operations show the same text, in whatever order and however often these came. A message has
 * operations of one copy for the others; how it travels is up to you. */

/* How many bytes the message has that types one character, or erases one. */
#define BIDIGRID_TYPED_SIZE 24
#define BIDIGRID_ERASED_SIZE 14

/* How many bytes the message has that erases and types so many characters. */
#define BIDIGRID_REPLACED_SIZE(erased, typed) (5 + 9 * (size_t)(erased) + 19 * (size_t)(typed))

/* What became of a message: how many operations it has, and how many of them were taken; or its faulty frame, counted
 * from 1, or 0 for its header. */
typedef struct bidigrid_taken {
    size_t operations;
    size_t taken;
    size_t frame;
} bidigrid_taken;

/* An identifier names one character for good, in every copy: a place changes when something is typed before it, its
 * identifier doesn't. */
typedef struct bidigrid_id {
    uint32_t counter;
    uint32_t site;
} bidigrid_id;

/* ---- Documents ---- */

/* A document is a desk with its text laid out: what an editor holds. It is shown by windows, which are the rows of
 * the whole text round a place; a keystroke or a message costs what it changes and what is shown. */
typedef struct bidigrid_document {
    struct bidigrid_opaque *held;
} bidigrid_document;

/* A document without operations. Site and key as of bidigrid_desk_new, width and base as of bidigrid_picture_new.
 * It has a share in the tables. */
uint32_t bidigrid_document_new(bidigrid_document *out, const bidigrid_tables *tables, uint32_t site, uint32_t width,
                               uint32_t base, uint64_t key_high, uint64_t key_low);

/* A document that goes on from a file, as bidigrid_desk_open. */
uint32_t bidigrid_document_open(bidigrid_document *out, const bidigrid_tables *tables, uint32_t site, uint32_t width,
                                uint32_t base, uint64_t key_high, uint64_t key_low, const uint8_t *file,
                                size_t file_size, bidigrid_taken *taken);
void bidigrid_document_free(bidigrid_document *document);

/* Another width, or another base direction, from now on. Then nothing is shown. */
uint32_t bidigrid_document_resize(bidigrid_document *document, uint32_t width);
uint32_t bidigrid_document_set_base(bidigrid_document *document, uint32_t base);

/* Rows are kept once they are laid out, in the memory that those of four windows take, or this many rows where that is
 * more (at most BIDIGRID_MAX_OPERATIONS), each counted with 20 bytes for each column. Where all rows of a text are kept,
 * only what changes is laid out again, however far apart the windows are; a row then takes 48 bytes, and 14 for each run of
 * like clusters. What is shown stays. */
uint32_t bidigrid_document_keep_rows(bidigrid_document *document, size_t rows);

/* As bidigrid_desk_insert, _erase and _replace. Where those take no memory, these are not refused for lack of it: what
 * could not be laid out is at the next bidigrid_document_show. Then nothing is shown. bidigrid_document_changes tells
 * what it changed in the text. */
uint32_t bidigrid_document_insert(bidigrid_document *document, size_t place, const char *text, size_t text_size,
                                  uint8_t *message, size_t room, size_t *size);
uint32_t bidigrid_document_erase(bidigrid_document *document, size_t from, size_t to, uint8_t *message, size_t room,
                                 size_t *size);
uint32_t bidigrid_document_replace(bidigrid_document *document, size_t from, size_t to, const char *text,
                                   size_t text_size, uint8_t *message, size_t room, size_t *size);

/* As bidigrid_desk_take and _merge. Then nothing is shown, but after a message of which nothing was taken.
 * bidigrid_document_changes tells what it changed in the text. */
uint32_t bidigrid_document_take(bidigrid_document *document, const uint8_t *message, size_t message_size,
                                bidigrid_taken *taken);
uint32_t bidigrid_document_merge(bidigrid_document *document, const bidigrid_document *other);

/* One change of a text: a character was put at a place, or the one there was cut. Each place counts in the text as
 * the changes before it left it. */
typedef struct bidigrid_change {
    size_t place;
    uint32_t character; /* the code point that was put; 0 where one was cut */
    uint32_t put;       /* 1: put, 0: cut */
} bidigrid_change;

/* What the last edit, take or merge changed in the text, in order: nothing where a take or merge took nothing. It
 * can be asked for until the next one, so a list that is too short loses nothing: `*count` is how many changes there
 * are, also where the answer is BIDIGRID_FAULT_SHORT_BUFFER and no change was written. An edit's are a cut at its
 * first place for each character that was erased, and then those that were typed. Where there was no memory for
 * them, which is never so of a keystroke, the answer is BIDIGRID_FAULT_MEMORY: what was done stays done, and the
 * text is to be read anew. */
uint32_t bidigrid_document_changes(const bidigrid_document *document, bidigrid_change *changes, size_t room,
                                   size_t *count);

/* As bidigrid_desk_reserve, _text, _length, _file, _id_at and _place_of. */
uint32_t bidigrid_document_reserve(bidigrid_document *document, size_t operations);
uint32_t bidigrid_document_text(const bidigrid_document *document, char *out, size_t room, size_t *size);
uint32_t bidigrid_document_length(const bidigrid_document *document, size_t *places);
uint32_t bidigrid_document_file(const bidigrid_document *document, uint8_t *out, size_t room, size_t *size);
uint32_t bidigrid_document_id_at(const bidigrid_document *document, size_t place, bidigrid_id *out);
uint32_t bidigrid_document_place_of(const bidigrid_document *document, const bidigrid_id *id, size_t *place);

/* The most rows above or below the row of the place that is shown. */
#define BIDIGRID_MAX_WINDOW_ROWS 1000

/* What is shown: how many rows, and which of them, from 0, is the row of the place that was asked for. */
typedef struct bidigrid_window {
    size_t rows;
    size_t number;
} bidigrid_window;

/* Shows the row of a place, and so many rows above and below it, fewer at the text's ends, and lays out those of their
 * paragraphs that are not kept. They stay shown until the document changes, or is to show others. More than
 * BIDIGRID_MAX_WINDOW_ROWS is BIDIGRID_FAULT_BAD_ROW. After BIDIGRID_FAULT_MEMORY nothing is shown. */
uint32_t bidigrid_document_show(bidigrid_document *document, size_t place, size_t above, size_t below,
                                bidigrid_window *out);

/* Of a row that is shown, from 0: what bidigrid_picture_row, _entries, _entry_sizes and _row_print answer of a picture's,
 * with places and bytes of the whole text; and the print of all rows that are shown. BIDIGRID_FAULT_BAD_ROW where there
 * is no such row, as before the first bidigrid_document_show and after a change. */
uint32_t bidigrid_document_row(const bidigrid_document *document, size_t row, bidigrid_row *out);
uint32_t bidigrid_document_entries(const bidigrid_document *document, size_t row, bidigrid_entry *entries, size_t room,
                                   size_t *count);
uint32_t bidigrid_document_entry_sizes(const bidigrid_document *document, size_t row, size_t *sizes, size_t room,
                                       size_t *count);
uint32_t bidigrid_document_row_print(const bidigrid_document *document, size_t row, char *out, size_t room,
                                     size_t *size);
uint32_t bidigrid_document_print(const bidigrid_document *document, char *out, size_t room, size_t *size);

/* Where a caret stands in a document: in a gap of a row, as a bidigrid_caret of the whole text, but that the row is
 * named by its first place. No two rows have the same one, so it holds whatever is shown. Show it by its row: its place
 * may be in the next one, where it stands at the end of a row that was broken. */
typedef struct bidigrid_position {
    size_t row; /* the first place of its row */
    size_t gap;
    size_t place;
} bidigrid_position;

/* As bidigrid_caret_at and _under, with the row of a place, as of a position's row, instead of a row's number. What was
 * shown before is not shown any more: bidigrid_document_show comes after this call, and so after the moves. */
uint32_t bidigrid_position_at(bidigrid_document *document, size_t place, bidigrid_position *out);
uint32_t bidigrid_position_under(bidigrid_document *document, size_t place, size_t column, bidigrid_position *out);

/* As bidigrid_caret_right, _left, _up and _down: its row and gap decide. BIDIGRID_FAULT_BAD_CARET where no row begins
 * at that place, as may be after a change, or the row has no such gap. */
uint32_t bidigrid_position_right(bidigrid_document *document, bidigrid_position *position);
uint32_t bidigrid_position_left(bidigrid_document *document, bidigrid_position *position);
uint32_t bidigrid_position_up(bidigrid_document *document, bidigrid_position *position);
uint32_t bidigrid_position_down(bidigrid_document *document, bidigrid_position *position);

/* ---- Desks ---- */

/* A desk is one copy of a text that several write, without rows. */
typedef struct bidigrid_desk {
    struct bidigrid_opaque *held;
} bidigrid_desk;

/* A desk without operations. No two desks of a text may have the same site, 1 to BIDIGRID_MAX_SITE. The key, 16
 * bytes, is that of its hash tables: where others choose what is taken, draw it at random. */
uint32_t bidigrid_desk_new(bidigrid_desk *out, uint32_t site, uint64_t key_high, uint64_t key_low);

/* A desk that goes on from a file which bidigrid_desk_file wrote, as `new` and then `take`; after a fault it is not
 * made. Under its own site it types on behind its last counter. So a site is reopened from a file that has all
 * messages of its own that went out: from an older one it would give identifiers twice, and others would answer
 * BIDIGRID_FAULT_IDENTIFIER_REUSED for good. Save before you send, or take a new site. */
uint32_t bidigrid_desk_open(bidigrid_desk *out, uint32_t site, uint64_t key_high, uint64_t key_low,
                            const uint8_t *file, size_t file_size, bidigrid_taken *taken);
void bidigrid_desk_free(bidigrid_desk *desk);

/* Types a character, a Unicode scalar, at a place, 0 to the text's length, and writes the message to send. After
 * BIDIGRID_FAULT_SHORT_BUFFER nothing was typed. While an operation is spare it takes no memory. */
uint32_t bidigrid_desk_type(bidigrid_desk *desk, size_t place, uint32_t character, uint8_t *message, size_t room,
                            size_t *size);

/* Types a text in UTF-8 at a place, and writes the message to send: all of it, or nothing. One character takes no
 * memory while an operation is spare. */
uint32_t bidigrid_desk_insert(bidigrid_desk *desk, size_t place, const char *text, size_t text_size,
                              uint8_t *message, size_t room, size_t *size);

/* Erases the characters from one place up to another, which is left out, and writes the message to send: all of it,
 * or nothing. Erasing one takes no memory. */
uint32_t bidigrid_desk_erase(bidigrid_desk *desk, size_t from, size_t to, uint8_t *message, size_t room,
                             size_t *size);

/* Erases the characters from one place up to another, types a text in UTF-8 where they began, and writes the
 * message to send: all of it, or nothing. */
uint32_t bidigrid_desk_replace(bidigrid_desk *desk, size_t from, size_t to, const char *text, size_t text_size,
                               uint8_t *message, size_t room, size_t *size);

/* Takes a message, an operation file of any version (FORMATS.md). Its bytes are read whole first: a fault in them,
 * 301 to 311, changes nothing. Then its operations are taken in order; the first that is refused ends it, and those
 * before it stay taken. A message may come again, and before those that it builds on. */
uint32_t bidigrid_desk_take(bidigrid_desk *desk, const uint8_t *message, size_t message_size, bidigrid_taken *taken);

/* Takes all that another desk has; a desk that is merged with itself stays as it is. After
 * BIDIGRID_FAULT_IDENTIFIER_REUSED nothing has changed; after BIDIGRID_FAULT_FULL and BIDIGRID_FAULT_MEMORY some of
 * it is taken. */
uint32_t bidigrid_desk_merge(bidigrid_desk *desk, const bidigrid_desk *other);

/* Reserves memory for new operations, at most BIDIGRID_MAX_OPERATIONS, also at a desk that has no room for as many.
 * While one is spare, typing a character needs no memory, nor does taking an operation but that for reading its
 * message. */
uint32_t bidigrid_desk_reserve(bidigrid_desk *desk, size_t operations);

/* The text in UTF-8, and how many characters it has. */
uint32_t bidigrid_desk_text(const bidigrid_desk *desk, char *out, size_t room, size_t *size);
uint32_t bidigrid_desk_length(const bidigrid_desk *desk, size_t *places);

/* All that the desk has, as a message: to save it, or for a desk that is new. */
uint32_t bidigrid_desk_file(const bidigrid_desk *desk, uint8_t *out, size_t room, size_t *size);

uint32_t bidigrid_desk_id_at(const bidigrid_desk *desk, size_t place, bidigrid_id *out);

/* The place of a character by its identifier; where it was erased, the place where it stood. */
uint32_t bidigrid_desk_place_of(const bidigrid_desk *desk, const bidigrid_id *id, size_t *place);

#ifdef __cplusplus
}
#endif

#endif
