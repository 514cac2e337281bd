#include "fields.h"

#include "digits.h"
#include "kinds.h"
#include "show.h"
#include "wording.h"

#include <string.h>

/* The bytes of a field, or of a whole row. */
struct field {
    const uint8_t *bytes;
    size_t length;
};

static int wrong(struct fault *fault, const char *what)
{
    fault->wrong = what;
    fault->complaint.wrong = NULL;
    return 0;
}

static int no_room(struct fault *fault)
{
    return wrong(fault, "has no room: a row has at most 1,024 values, those in lists too, and 65,536 bytes of strings");
}

static int add_value(tilde_table *table, struct field field, struct fault *fault)
{
    fault->wrong = "cannot be read";
    return value_read(table, (const char *)field.bytes, field.length, &fault->complaint);
}

static int begins(struct field field, const char *with)
{
    const size_t length = strlen(with);
    return field.length >= length && memcmp(field.bytes, with, length) == 0;
}

static int add_integer(tilde_table *table, struct field field, struct fault *fault)
{
    int64_t number;
    if (whole_read((const char *)field.bytes, field.length, &number))
        return tilde_table_integer(table, number) || no_room(fault);
    const size_t sign = begins(field, "+") || begins(field, "-") ? 1 : 0;
    size_t digits = sign;
    while (digits < field.length && is_digit(field.bytes[digits]))
        digits++;
    return wrong(fault, sign < digits && digits == field.length ? "is no number of 64 bits" : "is no whole number");
}

static int add_boolean(tilde_table *table, struct field field, struct fault *fault)
{
    const int truth = begins(field, "#t");
    if (field.length != 2 || (!truth && !begins(field, "#f")))
        return wrong(fault, "is neither #t nor #f");
    return tilde_table_boolean(table, truth) || no_room(fault);
}

static int add_character(tilde_table *table, struct field field, struct fault *fault)
{
    if (begins(field, "#\\"))
        return add_value(table, field, fault);
    if (field.length != 1 || field.bytes[0] > 127)
        return wrong(fault, "is no character; type one byte of 0 to 127, or its number as #\\x41");
    return tilde_table_character(table, field.bytes[0]) || no_room(fault);
}

/* Adds a field of a kind; 0 with what is wrong set. */
static int add_field(tilde_table *table, uint8_t kind, struct field field, struct fault *fault)
{
    switch (kind) {
    case TILDE_INTEGER:
        return add_integer(table, field, fault);
    case TILDE_STRING:
        return tilde_table_string(table, field.bytes, field.length) || no_room(fault);
    case TILDE_BOOLEAN:
        return add_boolean(table, field, fault);
    case TILDE_CHARACTER:
        return add_character(table, field, fault);
    default:
        return begins(field, "(") ? add_value(table, field, fault)
                                  : wrong(fault, "is no list; type it as (1 \"a\" (2))");
    }
}

static size_t count_fields(struct field row)
{
    size_t fields = 1;
    for (size_t i = 0; i < row.length; i++)
        fields += row.bytes[i] == '\t';
    return fields;
}

/* Another number of fields explains most faults of a field, and is told before them. */
static int find_fault(const struct kinds *kinds, size_t i, struct field row, struct field field, struct fault *fault)
{
    fault->wanted = kinds->count;
    fault->found = count_fields(row);
    fault->field = fault->wanted == fault->found ? i + 1 : 0;
    fault->kind = kinds->tags[i];
    fault->bytes = field.bytes;
    fault->length = field.length;
    return 0;
}

int fields_read(tilde_table *table, const struct kinds *kinds, const uint8_t *row, size_t length, struct fault *fault)
{
    size_t from = 0;
    for (size_t i = 0; i < kinds->count; i++) {
        const uint8_t *const tab = memchr(row + from, '\t', length - from);
        const size_t end = tab == NULL ? length : (size_t)(tab - row);
        const struct field field = {row + from, end - from};
        if ((tab == NULL) != (i + 1 == kinds->count) || !add_field(table, kinds->tags[i], field, fault))
            return find_fault(kinds, i, (struct field){row, length}, field, fault);
        from = end + 1;
    }
    return 1;
}

void fault_print(FILE *err, const struct fault *fault)
{
    if (fault->field == 0) {
        const uint64_t counts[] = {fault->found, fault->wanted};
        print_numbers(err, ": ~:d field~:p for ~:d kind~:p; a tab parts two fields~%", counts, 2);
        return;
    }
    fprintf(err, ", field %zu (%s): ", fault->field, kind_name(fault->kind));
    show_string(err, fault->bytes, fault->length);
    fprintf(err, " %s", fault->wrong);
    if (fault->complaint.wrong != NULL)
        fprintf(err, ": %s, at byte %zu; %s", fault->complaint.wrong, fault->complaint.at, fault->complaint.type);
    fputc('\n', err);
}
