/* Formats and vets tilde format strings over byte slices, into one buffer or small windows. Link with -ltilde: the
   libtilde.a or libtilde.so that make builds. */
#ifndef TILDE_H
#define TILDE_H

#include <stddef.h>
#include <stdint.h>

/* The version of this header: major, minor and patch. */
#define TILDE_VERSION "0.4.0"

#ifdef __cplusplus
extern "C" {
#endif

/* The version of the library that a program was linked with or has loaded, in the form of TILDE_VERSION. */
const char *tilde_version(void);

/* What the calls answer. A position is an offset in the format, for TILDE_BAD_TABLE in the table. */
enum tilde_code {
    /* Done. Position 0. */
    TILDE_DONE = 0,
    /* Bad table. The first fault in this order, with its position: shorter than 8 bytes (0), entries above 1,024 (0),
       arguments above entries (2), pool above 65,536 (4), another total length (4), a bad entry i (8 + 12i). */
    TILDE_BAD_TABLE = 1,
    /* Format above 4,096 bytes. Position 4,096. */
    TILDE_LONG_FORMAT = 2,
    /* Unknown code, or format ends inside a directive. Position of its tilde. */
    TILDE_UNKNOWN_CODE = 3,
    /* Block unclosed, wrong closer, stray separator or one after ~:;, ~:; under ~:[ or ~@[, wrong clause count,
       iteration body of no bytes, ninth level. Position of the opener for unclosed, count and empty body, else of the
       tilde met. From tilde_resume also a begun state with a number out of range, which no call gave; position 0. */
    TILDE_BAD_BLOCK = 4,
    /* Wrong parameter or modifier, seen in the text. Position of the tilde. */
    TILDE_BAD_PARAMETER = 5,
    /* No such argument, or a jump outside. Position of the tilde. */
    TILDE_NO_ARGUMENT = 6,
    /* Wrong kind of argument. Position of the tilde. */
    TILDE_WRONG_KIND = 7,
    /* Value of v or # outside its place's range. Position of the tilde. */
    TILDE_OUT_OF_RANGE = 8,
    /* Step 65,537 needed. Position of its byte or tilde, or of the ~{ for a pass. */
    TILDE_STEP_LIMIT = 9,
    /* tilde_format alone: piece doesn't fit. Position of its byte or tilde. */
    TILDE_NO_ROOM = 10,
    /* Vet: one of ~* ~{ ~^ or a parameter v; position of the first such tilde. Or a conditional whose ways end at
       different arguments, or ~@[ for another kind than a boolean; position of its tilde. */
    TILDE_NOT_PLAIN = 11,
    /* Vet: more than 1,024 kinds, unknown tag, or longest above 4,096. Position 0. */
    TILDE_BAD_KINDS = 12
};

/* What a call of tilde_resume answers instead of a tilde_code until the end. No tilde_code has this value. */
#define TILDE_MORE 256

/* The words for an answer, TILDE_MORE too, in English and without a full stop; those for a number that no call answers
   say so. */
static inline const char *tilde_words(uint32_t code)
{
    static const char *const words[] = {
        "done",
        "bad table",
        "format above 4,096 bytes",
        "unknown directive, or the format ends inside one",
        "block unclosed, or not made as it has to be",
        "wrong parameter or modifier",
        "no such argument, or a jump outside",
        "wrong kind of argument",
        "value of v or # outside its place's range",
        "more than 65,536 steps",
        "no room for the next piece",
        "no format that a vet can count",
        "more than 1,024 kinds, an unknown one, or a longest above 4,096",
    };
    if (code == TILDE_MORE)
        return "more to come";
    return code < sizeof words / sizeof words[0] ? words[code] : "no code of tilde";
}

/* The tag of an entry in a table, and a kind given to a vet. */
enum tilde_tag {
    /* The eight bytes are 0 or 1. */
    TILDE_BOOLEAN = 0,
    /* Signed 64 bits, two's complement. */
    TILDE_INTEGER = 1,
    /* 0 to 127. */
    TILDE_CHARACTER = 2,
    /* Offset in the pool and length, 4 bytes each, ending within the pool. */
    TILDE_STRING = 3,
    /* First entry and count, 4 bytes each; first is above the entry's own number, first + count at most the entries. */
    TILDE_LIST = 4
};

/* The table: a header, entries and a pool, with nothing after it. All its numbers are big-endian. The header is the
   number of entries (2 bytes), the number of arguments (2 bytes, at most the entries: the arguments are the first ones)
   and the length of the pool (4 bytes). An entry is its tag, three zero bytes and eight bytes. */
#define TILDE_HEADER_BYTES 8
#define TILDE_ENTRY_BYTES 12
#define TILDE_MOST_ENTRIES 1024
#define TILDE_MOST_POOL 65536

/* Limits of a format, of the steps of a line (in one call or all its windows together), and of what a vet is asked. */
#define TILDE_MOST_FORMAT 4096
#define TILDE_MOST_STEPS 65536
#define TILDE_MOST_KINDS 1024
#define TILDE_MOST_LONGEST 4096

/* A call of tilde_format, tilde_resume or tilde_vet takes at most so many bytes of stack on x86-64, with archives that
   rt lib built: from its caller's frame down, with the memcpy and memset that it calls. What runs on the same stack
   meanwhile, a signal handler or the loader that binds memcpy at its first call, comes on top. */
#define TILDE_STACK_BYTES 16384

/* Writes the text of a format over the arguments of a table at the start of a buffer, and answers a tilde_code: one of
   0 to 10.

   format, format_length   the format; only read
   table, table_length     the argument table; only read
   buffer, buffer_length   room for the text; no byte is added to end it
   position                set to the position that goes with the code
   steps                   set to the steps done: literal bytes, directives and passes begun
   written                 set to the number of bytes of the text in the buffer

   Every format and every table is answered, good or bad: nothing is asked of the caller but that each pointer is valid
   for its length, and each of the last three for a size_t. With length 0 a pointer may be null; the last three may not.
   The buffer and the three results must not overlap each other, the format or the table; format and table may overlap.
   The three results are set whatever the code.

   The bytes of the buffer from written on are as they came, after TILDE_DONE too.
   - TILDE_DONE: the whole text was written. Arguments left over are ignored.
   - Codes 1 to 5: nothing was written, and steps is 0.
   - Codes 6 to 10: every piece before the refused one is kept. A piece is a literal byte or one directive's own text,
     written whole or not at all. Steps include the refused directive or byte, except that TILDE_STEP_LIMIT answers
     TILDE_MOST_STEPS.

   No memory is taken, nothing is kept between calls, and calls from several threads do not disturb each other. */
uint32_t tilde_format(const uint8_t *format, size_t format_length, const uint8_t *table, size_t table_length,
                      uint8_t *buffer, size_t buffer_length, size_t *position, size_t *steps, size_t *written);

/* Where a line stands between two windows. All zeros is a fresh one: `tilde_state state = {0};`, in C++ `= {};`. The
   numbers serve the next call alone, with the same build of the library. A state holds no pointer: it may be copied,
   kept, and gone on from twice, and format, table and window may be moved between calls. There is padding between its
   fields, so memcmp does not compare states. */
typedef struct {
    /* 0 fresh, 1 begun, any other ended */
    size_t stage;
    /* the answer, once it has ended */
    uint32_t code;
    size_t position, steps;
    /* the steps that are left, the place of the format where it goes on, and the bytes of what comes from there that
       are written already */
    size_t left, place, given;
    /* the arguments in hand: the entry of the first, how many there are, and the next */
    size_t first, count, next;
    /* the open blocks, at most 8, the outermost first: what each is, the places of its tilde and of its inside, the
       passes left, and the arguments in hand outside it */
    size_t depth;
    uint16_t kinds[8], places[8], insides[8], passes[8], starts[8], counts[8], positions[8];
    /* what is left of a string in quotes that a window cut: how far it has come, the padding before it, its part of the
       table, and the padding behind it */
    size_t quote, before, from, to, behind;
    uint8_t pad;
} tilde_state;

/* The answer of a call: TILDE_MORE or a tilde_code, and the state for the next call. */
typedef struct {
    uint32_t code;
    size_t position, steps, written;
    tilde_state state;
} tilde_resumed;

/* Writes the next part of the text of a format into a window, as much as it has room for.

   format, table           as for tilde_format, with the same bytes in each call of a line
   window, window_length   room for the next part, of any size; a piece may be cut at its end, and so may a character of
                           several bytes
   state                   all zeros in the first call of a line, and then that of the call before

   From a fresh state on the answers are:
   - TILDE_MORE: the window is full, and at least one byte is still to come. Position and steps are 0.
   - The end, a code of 0 to 9: code, position and steps are those of one tilde_format with a buffer that is large
     enough. They come with the last bytes, so a window that the last byte fills answers the end. Codes 1 to 5 come
     before any byte is written; what was handed out before 6 to 9 stands.
   - After the end: code, position and steps again, with nothing written and the state that was given.
   - With a window of 0 bytes before the end: TILDE_MORE, nothing written and the state that was given, even where the
     format or the table is bad. A loop that lends no room never ends.
   The bytes of the window from written on are as they came. TILDE_MOST_STEPS is for the line, not for a call.

   The windows joined are the text of that one tilde_format: after a refusal what it keeps, and nothing of the refused
   piece. This holds where each call of a line has the same format and table, and the state of the call before.

   Any other state, format or table is answered as well, always in the same way, and nothing is written outside the
   window. A begun state with a number out of range, or with too long a format, is refused with TILDE_BAD_BLOCK at 0, 0
   steps, after the check of the table; padding of more than 65,536 bytes on a side is out of range, so every line ends.
   The format of a begun state is not checked again, and a position may lie outside it. A state that has ended answers
   whatever code it holds, TILDE_MORE too.

   A call costs the bytes that it writes, a check of the table (about a nanosecond for each entry), a look through a
   format of more than 208 bytes, and up to the rest of the steps where these write nothing; the first one also checks
   the format. The window that first reaches a ~s reads its whole string, to measure it, and later ones do not; of any
   other piece a window reads no more than it writes, and 128 bytes.

   Pointers are as for tilde_format; the window must not overlap the format or the table. State and answer take about
   530 bytes of the caller's frame, which TILDE_STACK_BYTES does not count. No memory is taken, and nothing is kept but
   the state: calls from several threads do not disturb each other, a line may go on in another thread, and a call
   repeated with the same state writes the same bytes, so that a write that failed can be tried again. */
tilde_resumed tilde_resume(const uint8_t *format, size_t format_length, const uint8_t *table, size_t table_length,
                           uint8_t *window, size_t window_length, tilde_state state);

/* The same with the state in place, for daily use:

       tilde_state state = {0};
       do {
           code = tilde_window(&state, format, format_length, table, table_length, window, sizeof window,
                               &position, &steps, &written);
           drain(window, written);
       } while (code == TILDE_MORE);

   The state and the three results must not be null, nor overlap each other, the window, the format or the table. */
static inline uint32_t tilde_window(tilde_state *state, const uint8_t *format, size_t format_length,
                                    const uint8_t *table, size_t table_length, uint8_t *window, size_t window_length,
                                    size_t *position, size_t *steps, size_t *written)
{
    const tilde_resumed answer =
        tilde_resume(format, format_length, table, table_length, window, window_length, *state);
    *state = answer.state;
    *position = answer.position;
    *steps = answer.steps;
    *written = answer.written;
    return answer.code;
}

/* Judges a format once for all tables whose arguments are of the given kinds, and answers a tilde_code: one of 0, 2 to
   8, 11 and 12. The format may have conditionals, but no jump, iteration, escape or parameter v.

   format, format_length   the format; only read
   kinds, kinds_length     one byte for each argument in order, a tilde_tag; only read
   longest                 no string argument has more bytes than this
   position                set to the position that goes with the code
   count                   set to the byte count; 0 after a refusal

   As above, nothing is asked of the caller but valid pointers, null only with length 0, and results that overlap
   neither each other nor the format or the kinds.

   A table suits the kinds when tilde_format finds no fault in it, it has as many arguments as there are kinds, each
   with the tag of its kind, and no string argument is above longest. Other entries, those of list arguments among them,
   may be any.
   - TILDE_DONE: every table that suits is formatted with TILDE_DONE in every buffer of count bytes or more. Without
     conditionals some table that suits fills count to the last byte, so that no smaller count would do; a conditional
     counts as its longest clause, even one that is never picked.
   - Codes 6 to 8: without conditionals every table that suits is refused with the same code and position, or with
     TILDE_NO_ROOM where the buffer is too small for the pieces before that position. With them nothing is said of
     tilde_format: every clause is judged, and the one that fails may never be picked.
   - Codes 2 to 5: tilde_format refuses the format with the same code and position over every good table.
   - TILDE_NOT_PLAIN, TILDE_BAD_KINDS: nothing is said of tilde_format. */
uint32_t tilde_vet(const uint8_t *format, size_t format_length, const uint8_t *kinds, size_t kinds_length,
                   size_t longest, size_t *position, size_t *count);

#ifdef __cplusplus
}
#endif

#endif
