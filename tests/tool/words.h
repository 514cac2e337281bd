/* Random formats and values, as words of a command line and as what the library is given. */
#ifndef WORDS_H
#define WORDS_H

#include "../c/drawing.h"
#include <stdio.h>
#include <string.h>
#include <tilde_table.h>

#define COUNT(array) (sizeof array / sizeof *array)

/* A word as it grows; what does not fit is left out. */
struct typed {
    char bytes[12000];
    size_t length;
};

static void add_bytes(struct typed *typed, const char *bytes, size_t length)
{
    if (length < sizeof typed->bytes - typed->length)
        memcpy(typed->bytes + typed->length, bytes, length);
    else
        length = 0;
    typed->length += length;
    typed->bytes[typed->length] = '\0';
}

static void add(struct typed *typed, const char *text)
{
    add_bytes(typed, text, strlen(text));
}

static void add_byte(struct typed *typed, unsigned byte)
{
    const char one = (char)(byte == 0 ? 1 : byte);
    add_bytes(typed, &one, 1);
}

static void add_text(struct typed *typed)
{
    static const char *const texts[] = {"wind ",    "x",        ", ",           "\n",   "\t",   "\\",   "\"",
                                        "'",        "\xc3\xa9", "\xe2\x82\xac", "\x01", "\xff", "\xc3", "\x7f",
                                        "\xc2\x85", " ",        "50%",          "#",    "; "};
    add(typed, texts[below(below(3) == 0 ? COUNT(texts) : 3)]);
}

static void add_parameter(struct typed *typed)
{
    static const char *const parameters[] = {"5",
                                             "0",
                                             "1",
                                             "12",
                                             "+3",
                                             "-0",
                                             "v",
                                             "#",
                                             "V",
                                             "'0",
                                             "'*",
                                             "",
                                             "",
                                             "'~",
                                             "128",
                                             "-2",
                                             "+",
                                             "4097",
                                             "99999999999999999999",
                                             "''",
                                             "00007"};
    add(typed, parameters[below(below(4) == 0 ? COUNT(parameters) : 13)]);
}

/* Any directive: parameters and modifiers that may fit its letter, or not. */
static void add_any(struct typed *typed)
{
    static const char letters[] = "asdxobcpASDXOBCP*~%_|/\n^aaddsscc*[]{};fqzt&(?k\r 5\x80";
    add(typed, "~");
    for (size_t i = below(4) == 0 ? below(6) : below(2); i > 0; i--) {
        add_parameter(typed);
        add(typed, i > 1 ? "," : "");
    }
    for (size_t i = below(3) == 0 ? below(4) : 0; i > 0; i--)
        add(typed, below(2) ? ":" : "@");
    add_bytes(typed, letters + below(below(6) == 0 ? COUNT(letters) - 1 : 22), 1);
}

static void add_directive(struct typed *typed)
{
    static const char *const good[] = {
        "~a",       "~s",     "~d",     "~c",     "~a",   "~8a", "~8@a",
        "~5,,,'0a", "~,4,1a", "~12s",   "~5,'0d", "~:d",  "~@d", "~10,'*,'/,2:d",
        "~x",       "~@o",    "~8,'0b", "~65c",   "~:c",  "~@c", "~10@c",
        "~p",       "~:p",    "~@p",    "~:@p",   "~*",   "~:*", "~2*",
        "~@*",      "~1@*",   "~v*",    "~#*",    "~~",   "~%",  "~3_",
        "~|",       "~/",     "~\n  ",  "~:\n ",  "~@\n", "~^",  "~va",
        "~vd",      "~,v:d",  "~#a",    "~v,'xd", "~,#a", "~0%", "~,,,vd",
        "~vc",
    };
    if (below(12) == 0)
        add_any(typed);
    else
        add(typed, good[below(below(3) == 0 ? COUNT(good) : 14)]);
}

static void add_sequence(struct typed *typed, size_t depth);

static void add_block(struct typed *typed, size_t depth)
{
    static const char *const openers[] = {"~[",  "~:[", "~@[", "~{",   "~@{", "~{",
                                          "~2{", "~#[", "~v[", "~1@{", "~0[", "~3,{"};
    static const size_t clauses[] = {3, 2, 1, 1, 1, 1, 1, 3, 2, 1, 2, 1};
    const size_t chosen = below(COUNT(openers) - (below(20) == 0 ? 0 : 1));
    const size_t wanted = below(15) == 0 ? 1 + below(4) : clauses[chosen];
    add(typed, openers[chosen]);
    for (size_t i = 0; i < wanted; i++) {
        if (i > 0)
            add(typed, below(8) == 0 ? "~:;" : "~;");
        if (below(15) != 0)
            add_sequence(typed, depth);
    }
    if (below(15) != 0)
        add(typed, (openers[chosen][strlen(openers[chosen]) - 1] == '[') == (below(20) != 0) ? "~]" : "~}");
}

static void add_sequence(struct typed *typed, size_t depth)
{
    for (size_t i = 1 + below(4); i > 0; i--) {
        const size_t what = below(10);
        if (what < 3)
            add_text(typed);
        else if (what < 8 || depth == 0)
            add_directive(typed);
        else
            add_block(typed, depth - 1);
    }
}

/* Changes a byte, takes one away, or doubles a part. */
static void spoil(struct typed *typed)
{
    if (typed->length == 0)
        return;
    const size_t at = below(typed->length), rest = typed->length - at;
    if (below(3) == 0) {
        typed->bytes[at] = (char)(1 + below(255));
    } else if (below(2) == 0) {
        memmove(typed->bytes + at, typed->bytes + at + 1, rest);
        typed->length--;
    } else {
        char part[64];
        const size_t length = rest < sizeof part ? rest : sizeof part;
        memcpy(part, typed->bytes + at, length);
        add_bytes(typed, part, length);
    }
}

static void draw_format(struct typed *typed)
{
    static const char *const ranged[] = {"~va", "~,va", "~v,vd",  "~,#a",      "~#,#s",
                                         "~vc", "~v%",  "~,,,vd", "~v[a~;b~]", "~v{x~}"};
    static const char *const endless[] = {"~@{x~}", "~@{~a~:*~}", "~{~\n~}", "~@{~[~]~@*~}", "~@{~@{~^x~}~}"};
    typed->length = 0;
    typed->bytes[0] = '\0';
    if (below(40) == 0)
        for (size_t i = below(11); i > 0; i--)
            add(typed, below(2) ? "~[" : "~{");
    if (below(6) == 0)
        add(typed, ranged[below(COUNT(ranged))]);
    add_sequence(typed, below(6) == 0 ? 9 : 2);
    if (below(30) == 0)
        add(typed, endless[below(COUNT(endless))]);
    for (size_t i = below(8) == 0 ? 1 + below(3) : 0; i > 0; i--)
        spoil(typed);
    /* about the longest format, and past it */
    if (below(400) == 0) {
        for (size_t i = 4060 + below(60); i > typed->length;)
            add(typed, "-");
        add_sequence(typed, 1);
    }
    if (below(400) == 0)
        add(typed, below(2) ? "~4096%~a" : "~@{~4096_~*~}");
}

static void draw_integer(struct typed *typed, tilde_table *table)
{
    static const int64_t edges[] = {0, 1, -1, 4096, 4097, 127, 128, INT64_MAX, INT64_MIN};
    const int64_t number = below(3) == 0 ? edges[below(COUNT(edges))] : (int64_t)below(12) - 2;
    char text[24];
    snprintf(text, sizeof text, "%s%lld", number >= 0 && below(9) == 0 ? "+" : "", (long long)number);
    add(typed, text);
    tilde_table_integer(table, number);
}

/* A byte of a string as it is, if it may stand there, or as one of its escapes. */
static void add_escaped(struct typed *typed, unsigned byte)
{
    static const char meant[] = "\n\t\r\\ #", letters[] = "ntr\\sh";
    const char *letter = byte == 0 ? NULL : strchr(meant, (int)byte);
    char text[8];
    if (byte > 0 && byte != '"' && byte != '\\' && below(3) != 0)
        add_byte(typed, byte);
    else if (letter != NULL && below(2)) {
        snprintf(text, sizeof text, "\\%c", letters[letter - meant]);
        add(typed, text);
    } else {
        snprintf(text, sizeof text, below(2) ? "\\x%02x" : "\\x%02X", byte);
        add(typed, text);
    }
}

static void draw_string(struct typed *typed, tilde_table *table)
{
    uint8_t bytes[600];
    size_t length = 0;
    add(typed, "\"");
    for (size_t i = below(10); i > 0; i--) {
        const unsigned byte = (unsigned)(below(4) == 0 ? below(256) : 'a' + below(26));
        const size_t times = below(12) == 0 ? 1 + below(50) : 1;
        char text[16];
        snprintf(text, sizeof text, "\\*%u(", (unsigned)times);
        add(typed, times > 1 ? text : "");
        add_escaped(typed, byte);
        add(typed, times > 1 ? ")" : "");
        memset(bytes + length, (int)byte, times);
        length += times;
    }
    add(typed, "\"");
    tilde_table_string(table, bytes, length);
}

static void draw_character(struct typed *typed, tilde_table *table)
{
    const unsigned byte = (unsigned)below(128);
    char text[8] = "#\\A";
    if (byte > 0 && below(2))
        text[2] = (char)byte;
    else
        snprintf(text, sizeof text, "#\\x%02x", byte);
    add(typed, text);
    tilde_table_character(table, byte);
}

static void draw_value(struct typed *typed, tilde_table *table, size_t depth)
{
    const size_t kind = below(depth == 0 ? 9 : 11);
    if (kind < 3) {
        draw_integer(typed, table);
    } else if (kind < 6) {
        draw_string(typed, table);
    } else if (kind < 7) {
        draw_character(typed, table);
    } else if (kind < 9) {
        const int truth = below(2) == 0;
        add(typed, truth ? "#t" : "#f");
        tilde_table_boolean(table, truth);
    } else {
        tilde_table_list_begin(table);
        add(typed, "(");
        for (size_t i = below(5); i > 0; i--) {
            draw_value(typed, table, depth - 1);
            add(typed, i > 1 ? " " : "");
        }
        add(typed, ")");
        tilde_table_list_end(table);
    }
}

#endif
