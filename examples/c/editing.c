/* Two documents of one text: what is typed at one goes to the other as a message, which shows it and tells what changed. */
#include <bidigrid.h>
#include <stdio.h>
#include <stdlib.h>
#include <string.h>

static void must(uint32_t answer)
{
    if (answer != BIDIGRID_OK) {
        fprintf(stderr, "editing: %s\n", bidigrid_fault_name(answer));
        exit(1);
    }
}

/* Puts words in the place of characters, and sends the message to another document. */
static void replace(bidigrid_document *document, size_t from, size_t to, const char *words, bidigrid_document *other)
{
    uint8_t message[BIDIGRID_REPLACED_SIZE(16, 64)];
    size_t size;
    must(bidigrid_document_replace(document, from, to, words, strlen(words), message, sizeof message, &size));
    must(bidigrid_document_take(other, message, size, NULL));
}

/* Shows the rows round a place, 14 columns wide, with a mark at the row of the place. */
static void show(const char *who, bidigrid_document *document, size_t place)
{
    bidigrid_window window;
    must(bidigrid_document_show(document, place, 1, 1, &window));
    for (size_t row = 0; row < window.rows; row++) {
        char print[128];
        size_t size;
        must(bidigrid_document_row_print(document, row, print, sizeof print, &size));
        printf("%s %c|%.*s|\n", who, row == window.number ? '>' : ' ', (int)size - 1, print);
    }
}

/* Tells what the last message changed, for an editor that keeps a text of its own. */
static void tell(const char *who, const bidigrid_document *document)
{
    bidigrid_change changes[32];
    size_t count;
    must(bidigrid_document_changes(document, changes, 32, &count));
    for (size_t number = 0; number < count; number++)
        if (changes[number].put)
            printf("%s   put U+%04X at %zu\n", who, (unsigned)changes[number].character, changes[number].place);
        else
            printf("%s   cut at %zu\n", who, changes[number].place);
}

int main(void)
{
    bidigrid_tables tables = BIDIGRID_NONE;
    bidigrid_document one = BIDIGRID_NONE, other = BIDIGRID_NONE;
    must(bidigrid_tables_unicode(&tables, false));
    must(bidigrid_document_new(&one, &tables, 1, 14, BIDIGRID_BASE_AUTO, 0, 0));
    must(bidigrid_document_new(&other, &tables, 2, 14, BIDIGRID_BASE_AUTO, 0, 0));
    replace(&one, 0, 0, "to buy:\nחלב 2, קפה\nbread\n", &other);
    show("other", &other, 8);
    replace(&other, 12, 13, "3", &one); /* not two of them but three */
    tell("one  ", &one);
    show("one  ", &one, 12);
    bidigrid_document_free(&one);
    bidigrid_document_free(&other);
    bidigrid_tables_free(&tables);
    return 0;
}
