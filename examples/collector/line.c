/* The line of a member: all that the collector asks of tilde. */
#include "pack.h"

#include <stdlib.h>

/* The values of a line in their order, as table_of adds them and the help of the collector names them. */
static const uint8_t kinds[] = {TILDE_STRING,  TILDE_INTEGER, TILDE_INTEGER, TILDE_INTEGER,
                                TILDE_INTEGER, TILDE_BOOLEAN, TILDE_LIST};
/* a word takes at least two of the first bytes: one of its own, and what parts it from the next */
#define TABLE_ROOM \
    (TILDE_HEADER_BYTES + TILDE_ENTRY_BYTES * (sizeof kinds + FIRST_BYTES / 2) + LONGEST_NAME + FIRST_BYTES)

static void add_words(tilde_table *table, const char *first, size_t length)
{
    size_t word = 0;
    for (size_t i = 0; i <= length; i++) {
        const char byte = i < length ? first[i] : '\n';
        if (byte != ' ' && byte != '\t' && byte != '\r' && byte != '\n')
            continue;
        if (i > word)
            tilde_table_string(table, first + word, i - word);
        if (byte == '\n')
            return;
        word = i + 1;
    }
}

static size_t table_of(const struct member *member, int pack, uint8_t *room)
{
    char first[FIRST_BYTES];
    const size_t length = member->length < FIRST_BYTES ? member->length : FIRST_BYTES;
    tilde_table table;
    read_at(pack, first, length, member->offset);
    tilde_table_begin(&table, room, TABLE_ROOM);
    tilde_table_string(&table, member->name, member->name_length);
    tilde_table_integer(&table, member->length);
    tilde_table_integer(&table, member->number);
    tilde_table_integer(&table, member->offset);
    tilde_table_integer(&table, member->checksum);
    tilde_table_boolean(&table, member->length == 0);
    tilde_table_list_begin(&table);
    add_words(&table, first, length);
    tilde_table_list_end(&table);
    return tilde_table_end(&table);
}

static void set_room(struct line *line, size_t room)
{
    uint8_t *const bytes = realloc(line->bytes, room);
    if (bytes == NULL)
        stop(FAILED, NULL, "no memory for a line of %zu bytes", room);
    line->bytes = bytes;
    line->room = room;
}

/* Whether there is a ~], which ends a conditional and no other block. After ~~ it is none, and then a format that could
   be refused at once is refused with the line of its first member. */
static int has_conditional(const char *format, size_t length)
{
    for (size_t i = 1; i < length; i++)
        if (format[i - 1] == '~' && format[i] == ']')
            return 1;
    return 0;
}

/* Whether a vet's code says that no member can have a line. Codes 6 to 8 do not where there is a conditional: the vet
   judges every clause, and the one that fails may never be picked. */
static int refuses_all(uint32_t code, const char *format, size_t length)
{
    if (code >= TILDE_NO_ARGUMENT && code <= TILDE_OUT_OF_RANGE)
        return !has_conditional(format, length);
    return code != TILDE_DONE && code != TILDE_NOT_PLAIN;
}

/* The vet's count is enough for every member, so a buffer of that size is made once, and no line is refused. Where it
   cannot count, as with jumps, iterations, escapes or v, the buffer starts small, and line_make enlarges it. What is
   wrong in the text of a format it finds either way. */
void line_begin(struct line *line, const char *name, const char *format, size_t format_length)
{
    size_t position, count;
    const uint32_t code = tilde_vet((const uint8_t *)format, format_length, kinds, sizeof kinds, LONGEST_NAME,
                                    &position, &count);
    if (refuses_all(code, format, format_length)) {
        complain(NULL, "%s is refused (%u): %s, at byte %zu; for more, type", name, (unsigned)code, tilde_words(code),
                 position);
        fprintf(stderr, "  tilde vet FORMAT string integer integer integer integer boolean list --longest %d\n",
                LONGEST_NAME);
        exit(REFUSED);
    }
    *line = (struct line){.format = format, .format_length = format_length};
    /* a byte more, since a room of none may have no address */
    set_room(line, code == TILDE_DONE ? count + 1 : 128);
}

void line_make(struct line *line, const struct member *member, int pack)
{
    uint8_t table[TABLE_ROOM];
    const size_t table_length = table_of(member, pack, table);
    size_t position, steps;
    uint32_t code;
    while ((code = tilde_format((const uint8_t *)line->format, line->format_length, table, table_length, line->bytes,
                                line->room, &position, &steps, &line->length)) == TILDE_NO_ROOM) {
        if (line->room >= LONGEST_LINE)
            stop(REFUSED, member, "its line has more than %d bytes", LONGEST_LINE);
        set_room(line, 2 * line->room);
    }
    if (code != TILDE_DONE)
        stop(REFUSED, member, "its line is refused (%u): %s, at byte %zu of the format", (unsigned)code,
             tilde_words(code), position);
}
