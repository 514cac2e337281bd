#include "hand.h"

#include "entries.h"
#include "kinds.h"
#include "running.h"
#include "show.h"
#include "wording.h"

#include <string.h>
#include <tilde.h>

/* The state of a call when so many bytes are written; the end or a later state never comes. */
static tilde_state state_after(const struct call *call, uint64_t bytes)
{
    uint8_t window[4096];
    tilde_state state = {0};
    size_t position, steps, written = 0;
    uint32_t code = TILDE_MORE;
    for (; code == TILDE_MORE && bytes > 0; bytes -= written) {
        const size_t size = bytes < sizeof window ? (size_t)bytes : sizeof window;
        code = tilde_window(&state, call->format, call->format_length, call->table, call->table_length, window, size,
                            &position, &steps, &written);
    }
    return state;
}

/* Two bytes of text are put into the format, and the line is stopped between them: there the state says which arguments
   are in hand. The line then has to end as it does without them, with this code and position. */
static int hand_at(const struct call *call, size_t at, uint32_t code, size_t position, struct hand *hand)
{
    uint8_t marked[TILDE_MOST_FORMAT];
    struct call marking = *call;
    if (call->format_length + 2 > sizeof marked)
        return 0;
    memcpy(marked, call->format, at);
    memset(marked + at, 'x', 2);
    memcpy(marked + at + 2, call->format + at, call->format_length - at);
    marking.format = marked;
    marking.format_length = call->format_length + 2;
    const struct learned learned = line_learn(&marking);
    /* the two bytes are steps as well, so another limit may come first */
    if (learned.ending.code != code || learned.ending.position != position || learned.written < 2)
        return 0;
    const tilde_state state = state_after(&marking, learned.written - 1);
    *hand = (struct hand){call->table, NULL, state.first, state.count, state.next};
    return state.place == at + 1;
}

int hand_find(const struct call *call, uint32_t code, size_t position, struct hand *hand)
{
    return hand_at(call, position, code, position + 2, hand);
}

int hand_at_end(const struct call *call, struct hand *hand)
{
    return hand_at(call, call->format_length, TILDE_DONE, 0, hand);
}

/* The list that has an entry behind the arguments among its own; there is one, since values reach a table in lists. */
static size_t list_around(const uint8_t *table, size_t i)
{
    for (size_t list = 0;; list++) {
        const struct entry entry = entry_at(table, list);
        if (entry.tag == TILDE_LIST && i >= entry.first && i < entry.first + entry.length)
            return list;
    }
}

size_t hand_field(const struct hand *hand, size_t i)
{
    const size_t arguments = arguments_of(hand->table);
    size_t field = hand->first > 0 ? hand->first : i;
    while (field >= arguments)
        field = list_around(hand->table, field);
    return field;
}

unsigned hand_kind(const struct hand *hand, size_t i)
{
    return hand->table != NULL ? entry_at(hand->table, hand->first + i).tag : hand->kinds[i];
}

void hand_name(FILE *to, const struct hand *hand, size_t i)
{
    fputs("the ", to);
    print_ordinal(to, i + 1);
    /* a list stands behind the first entry, and so do its values */
    fputs(hand->first > 0 ? " value of its list" : " argument", to);
}

void hand_show(FILE *to, const struct hand *hand, size_t i)
{
    if (hand->table == NULL) {
        fputs(kind_with_article(hand_kind(hand, i)), to);
        return;
    }
    fprintf(to, "the %s ", kind_name(hand_kind(hand, i)));
    show_value(to, hand->table, hand->first + i);
}
