/* Random rows and what tilde lines should make of them: the line of each comes from a direct call of tilde_format over
   a table of the values that the row was written from. */
#ifndef MADE_H
#define MADE_H

#include "../../tools/lines_run.h"
#include "../c/drawing.h"

#include <inttypes.h>
#include <stdio.h>
#include <stdlib.h>
#include <string.h>

/* In what is expected on standard error: the rest of the line may be any text. */
#define ANY_REST '\1'
/* A field may be named here by its number and kind. */
#define ANY_FIELD '\2'
#define LONGEST_LINE ((size_t)4 << 20)

static int once_in(size_t times)
{
    return below(times) == 0;
}

static const char *const kind_words[] = {"boolean", "integer", "character", "string", "list"};

/* Directives for each kind, a few of them for another. */
static const char *const pieces[][8] = {
    {"~a", "~:[no~;yes~]", "~@[set ~a~]", "~s", "~5@a", "~d", "~*", "~p"},
    {"~d", "~5d", "~:d", "~8,'0d", "~x", "~[zero~;one~:;many~]", "~d item~:p", "~6a"},
    {"~c", "~@c", "~:c", "~a", "~s", "~3a", "~,,,'.@a", "~:[~;~]"},
    {"~a", "~s", "~8a", "~12@s", "~5,4a", "~10,,,'-@a", "~@[~a~]", "~d"},
    {"~{~a~^,~}", "~{~d ~}", "~{~s~}", "~{~{~a~}~}", "~2{~a~}", "~*", "~{~#[~;~a~;~a ~a~:;~a..~]~^ ~}", "~a"},
};
static const char *const between[] = {" ", "|", "", "~%", "~_", "~~", "\t", "~4096_"};
static const char *const behind[] = {"", "~0@*~a", "~9@*", "~0@*~@{~s ~}", "~#[none~;one~:;more~]", "~0@*~v%", "~q",
                                     "~0@*~20@{~4096_~0@*~}", "~0@*~17@{~4096_~0@*~}~0@*~c", "~0@*~@{x~}"};

/* Fields that are none of each kind; every text is a string. */
static const char *const bad_fields[][8] = {
    {"", "#", "#T", "true", "#tt", "1", "t", "#t "},
    {"", "+", "-", "12x", " 1", "1.0", "9223372036854775808", "-9223372036854775809"},
    {"", "AB", "\351", "#\\", "#\\x80", "#\\x411", "\303\251", "#\\x4"},
    {NULL},
    {"", "(", "(1 2", "1", "()x", ")", "(wind)", "(1\"a\")"},
};

/* A job, its rows, and what is expected of it. */
struct made {
    struct lines_job job;
    char format[512];
    size_t longest;
    const char *longest_told;
    char *rows, *out, *err;
    size_t rows_length, out_length, err_length;
    int status;
    /* of the rows expected: all, those with a line, and those refused */
    size_t all, lines, refused;
};

static void choose_format(struct made *made)
{
    const struct kinds *kinds = &made->job.kinds;
    made->format[0] = '\0';
    for (size_t i = 0; i < kinds->count; i++) {
        strcat(made->format, pieces[kinds->tags[i]][once_in(6) ? below(8) : below(5)]);
        strcat(made->format, between[once_in(30) ? 7 : below(7)]);
    }
    strcat(made->format, once_in(5) ? behind[once_in(20) ? 9 : below(9)] : "");
    strcat(made->format, once_in(8) ? "" : "~%");
    made->job.format = (const uint8_t *)made->format;
    made->job.format_length = strlen(made->format);
}

static int make_integer(FILE *row, tilde_table *table)
{
    static const int64_t ends[] = {0, 1, -1, INT64_MIN, INT64_MAX};
    const int64_t number = once_in(6) ? ends[below(5)] : (int64_t)(word() >> below(64)) * (once_in(3) ? -1 : 1);
    const uint64_t size = number < 0 ? -(uint64_t)number : (uint64_t)number;
    fputs(number < 0 ? "-" : once_in(8) ? "+" : "", row);
    fprintf(row, "%.*s%" PRIu64, once_in(8) ? (int)below(6) : 0, "00000000", size);
    return tilde_table_integer(table, number);
}

static int make_boolean(FILE *row, tilde_table *table)
{
    const int truth = once_in(2);
    fputs(truth ? "#t" : "#f", row);
    return tilde_table_boolean(table, truth);
}

static int make_character(FILE *row, tilde_table *table, int inside)
{
    const unsigned character = (unsigned)below(128);
    if (inside || once_in(2) || strchr("\t\n\r", (int)character) != NULL)
        fprintf(row, once_in(2) ? "#\\x%02x" : "#\\x%02X", character);
    else
        fputc((int)character, row);
    return tilde_table_character(table, character);
}

/* A byte inside quotes, as it stands or escaped. */
static void put_quoted(FILE *row, uint8_t byte)
{
    static const char meant[] = "\n\t\r\\ #", letters[] = "ntr\\sh";
    const char *escape = byte == 0 ? NULL : strchr(meant, byte);
    if (escape != NULL && (byte < 32 || byte == '\\' || once_in(2)))
        fprintf(row, "\\%c", letters[escape - meant]);
    else if (byte == '"' || once_in(8))
        fprintf(row, once_in(2) ? "\\x%02x" : "\\*1(\\x%02x)", byte);
    else
        fputc(byte, row);
}

static int make_string(FILE *row, tilde_table *table, int inside)
{
    static uint8_t bytes[90000];
    const size_t length = once_in(300) ? below(sizeof bytes) : once_in(60) ? below(5000) : below(14);
    for (size_t i = 0; i < length; i++) {
        const uint8_t byte = once_in(3) ? (uint8_t)word() : (uint8_t)('a' + below(26));
        bytes[i] = !inside && strchr("\t\n\r", byte) != NULL ? '.' : byte;
    }
    if (inside) {
        fputc('"', row);
        for (size_t i = 0; i < length; i++)
            put_quoted(row, bytes[i]);
        fputc('"', row);
    } else {
        fwrite(bytes, 1, length, row);
    }
    return tilde_table_string(table, bytes, length);
}

static int make_value(FILE *row, tilde_table *table, uint8_t kind, int depth);

static int make_list(FILE *row, tilde_table *table, int depth)
{
    const size_t count = once_in(500) ? below(1500) : below(6);
    int fits = tilde_table_list_begin(table);
    fputc('(', row);
    for (size_t i = 0; i < count; i++) {
        fputs(i > 0 ? " " : "", row);
        fits = make_value(row, table, depth < 4 && once_in(12) ? TILDE_LIST : (uint8_t)below(4), depth + 1) && fits;
    }
    fputc(')', row);
    return tilde_table_list_end(table) && fits;
}

/* Writes a value of a kind and adds it to the table; 0 where that has no room. */
static int make_value(FILE *row, tilde_table *table, uint8_t kind, int depth)
{
    switch (kind) {
    case TILDE_BOOLEAN:
        return make_boolean(row, table);
    case TILDE_INTEGER:
        return make_integer(row, table);
    case TILDE_CHARACTER:
        return make_character(row, table, depth > 0);
    case TILDE_STRING:
        return make_string(row, table, depth > 0);
    default:
        return make_list(row, table, depth);
    }
}

/* Writes the fields of a row, one of them bad where that is wanted; answers the first bad one, from 1 on, or 0. */
static size_t make_fields(const struct kinds *kinds, FILE *row, tilde_table *table, int bad)
{
    const size_t chosen = bad ? below(kinds->count) : kinds->count;
    size_t first_bad = 0;
    for (size_t i = 0; i < kinds->count; i++) {
        const uint8_t kind = kinds->tags[i];
        int good = kind == TILDE_STRING || i != chosen;
        fputs(i > 0 ? "\t" : "", row);
        if (good)
            good = make_value(row, table, kind, 0);
        else
            fputs(bad_fields[kind][below(8)], row);
        first_bad = first_bad == 0 && !good ? i + 1 : first_bad;
    }
    return first_bad;
}

#endif
