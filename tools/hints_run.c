#include "hints.h"
#include "judging.h"
#include "running.h"
#include "wording.h"

#include <inttypes.h>
#include <string.h>
#include <tilde.h>

/* How many there are, as `is 1`. */
static void print_are(FILE *to, size_t count)
{
    fprintf(to, "%s %zu", count == 1 ? "is" : "are", count);
}

/* The same the other way round, as `1 is`. */
static void print_left(FILE *to, size_t count)
{
    if (count == 0)
        fputs("none is", to);
    else
        fprintf(to, "%zu %s", count, count == 1 ? "is" : "are");
}

/* Behind what takes an argument: that it is not there, and how many are. */
static void print_missing(FILE *to, const struct hand *hand, size_t argument)
{
    if (hand->count == 0) {
        fputs(hand->table == NULL ? " takes an argument, and no kind is given for it"
                                  : " takes an argument, and none is given",
              to);
        return;
    }
    fputs(" takes ", to);
    hand_name(to, hand, argument);
    fputs(", and there ", to);
    print_are(to, hand->count);
}

/* Behind what takes an argument: of which kinds, and which one it met. */
static void print_met(FILE *to, const struct hand *hand, size_t argument, unsigned kinds)
{
    fputs(" takes ", to);
    print_kinds(to, kinds);
    fputs(", and ", to);
    hand_name(to, hand, argument);
    fputs(" is ", to);
    hand_show(to, hand, argument);
}

/* Which directive takes the kind that was met; a vet refuses the one for a list. */
static void print_instead(FILE *to, const struct rule *rule, const struct hand *hand, unsigned kind)
{
    if (kind == TILDE_LIST)
        fputs(hand->table == NULL ? "; a vet cannot count lines with a list" : "; ~{ goes over a list", to);
    else if (rule->letter == '[')
        fputs("; ~:[ tells #f from all else", to);
    else if (rule->letter != '{')
        fputs("; ~a shows it", to);
    else
        fputs("; ~@{ goes over the arguments themselves", to);
}

static void print_jump(FILE *to, const struct directive *directive, const struct hand *hand,
                       const struct finding *finding)
{
    const struct spelling spelling = directive_spell(directive);
    const char *thing = hand->first > 0 ? "value" : "argument";
    const int64_t from = (int64_t)finding->argument, goal = finding->value;
    fprintf(to, "%.*s", (int)spelling.length, (const char *)spelling.bytes);
    if (directive->at) {
        fprintf(to, " goes to %s %" PRId64 ", the first being 0, and there ", thing, goal);
        print_are(to, hand->count);
        return;
    }
    fputs(directive->colon ? " goes back over " : " skips ", to);
    print_count(to, (uint64_t)(directive->colon ? from - goal : goal - from), thing);
    fputs(", and ", to);
    print_left(to, directive->colon ? finding->argument : hand->count - finding->argument);
    fputs(directive->colon ? " before it" : " left", to);
}

/* What is wrong with the v or # of a place. */
static void print_parameter(FILE *to, const struct place *place, const struct hand *hand, const struct finding *finding)
{
    if (finding->cause == REMAINING_RANGE || finding->cause == V_RANGE) {
        fprintf(to, "its %s is ", place->name);
        print_takes(to, place);
        if (finding->cause == REMAINING_RANGE) {
            fprintf(to, ", and # is %" PRId64 " here, the arguments that remain", finding->value);
        } else {
            fprintf(to, ", and v takes %" PRId64 " from ", finding->value);
            hand_name(to, hand, finding->argument);
        }
        return;
    }
    fprintf(to, "the v of its %s", place->name);
    if (finding->cause == V_MISSING)
        print_missing(to, hand, finding->argument);
    else
        print_met(to, hand, finding->argument, 1u << (place->character ? TILDE_CHARACTER : TILDE_INTEGER));
}

static void print_finding(FILE *to, const struct directive *directive, const struct rule *rule, const struct hand *hand,
                          const struct finding *finding)
{
    const enum cause cause = finding->cause;
    if (cause == V_MISSING || cause == V_KIND || cause == V_RANGE || cause == REMAINING_RANGE) {
        print_parameter(to, rule->places + finding->place, hand, finding);
        return;
    }
    if (cause == JUMP_OUTSIDE) {
        print_jump(to, directive, hand, finding);
        return;
    }
    directive_name(to, directive);
    if (cause == NONE_BEFORE) {
        fputs(" goes back to the argument before, and here none was taken", to);
    } else if (cause == OWN_MISSING) {
        print_missing(to, hand, finding->argument);
    } else {
        print_met(to, hand, finding->argument, rule->kinds);
        print_instead(to, rule, hand, hand_kind(hand, finding->argument));
        if (directive->count > 1 && directive->count <= places_of(rule) &&
            directive->parameters[directive->count - 1].form == FORM_EMPTY)
            fprintf(to, "; if %c is meant as a character, write '%c", directive->code, directive->code);
    }
}

/* What can be said without the arguments in hand. */
static void print_less(FILE *to, const struct directive *directive, const struct rule *rule, uint32_t code)
{
    directive_name(to, directive);
    if (code == TILDE_NO_ARGUMENT) {
        fputs(" finds no argument here", to);
    } else if (code == TILDE_WRONG_KIND && directive_v(directive) == MOST_PLACES) {
        fputs(" takes ", to);
        print_kinds(to, rule->kinds);
    } else if (code == TILDE_WRONG_KIND) {
        fputs(" meets another kind of argument than it takes, or its v does", to);
    } else {
        fputs(" has a v or # that is outside its place's range", to);
    }
}

void hint_argument(FILE *to, const struct directive *directive, uint32_t code, const struct hand *hand)
{
    const struct rule *rule = directive_rule(directive);
    struct finding finding = {.cause = CAUSE_NONE};
    if (rule == NULL)
        return;
    if (hand != NULL)
        finding = directive_judge(directive, rule, hand);
    if (cause_code(finding.cause) == code)
        print_finding(to, directive, rule, hand, &finding);
    else
        print_less(to, directive, rule, code);
}

/* Whether nothing in the body of an iteration takes an argument or goes to another. */
static int takes_nothing(struct walk *walk, const struct directive *opener)
{
    struct directive directive = *opener;
    const size_t depth = walk->depth;
    walk_past(walk, opener);
    while (walk_find(walk, &directive) && walk->depth > depth) {
        if (takes_argument(&directive) || directive.code == '*' || directive.code == '{' ||
            directive_v(&directive) < MOST_PLACES)
            return 0;
        walk_past(walk, &directive);
    }
    return 1;
}

/* Where the last step before the limit was done: a byte put before the format is a step as well, so there the limit is
   met at that one. Where the format has no room for the byte, the place of the refused step. */
static size_t step_before(const struct call *call, size_t position)
{
    uint8_t bytes[TILDE_MOST_FORMAT];
    if (call->format_length >= sizeof bytes)
        return position;
    bytes[0] = 'x';
    memcpy(bytes + 1, call->format, call->format_length);
    const struct call later = {bytes, call->format_length + 1, call->table, call->table_length};
    return line_learn(&later).ending.position - 1;
}

/* Whether the step that was refused at a loop is a pass of it: only then was the step before done in the loop. */
static int is_pass(const struct call *call, struct walk walk, const struct directive *opener)
{
    struct directive closer;
    size_t separators;
    const size_t before = step_before(call, opener->start);
    return before >= opener->start && walk_to_closer(&walk, opener, &closer, &separators) && before < closer.start;
}

void hint_steps(FILE *to, const struct call *call, size_t position)
{
    const struct format format = {call->format, call->format_length};
    struct walk walk = walk_to(&format, position);
    struct directive loop;
    const int opens = walk_find(&walk, &loop) && loop.start == position && loop.code == '{' &&
                      is_pass(call, walk, &loop);
    while (!opens && walk.depth > 0 && walk.open[walk.depth - 1].opener.code != '{')
        walk.depth--;
    if (!opens && walk.depth == 0) {
        fputs("each byte of text, each directive and each pass is a step, those of the loops before it too", to);
        return;
    }
    if (!opens) {
        loop = walk.open[--walk.depth].opener;
        walk.next = loop.start;
    }
    fputs("in the loop ", to);
    directive_name(to, &loop);
    fprintf(to, " at byte %zu; ", loop.start);
    const int ends = loop.parameters[0].form != FORM_EMPTY || !takes_nothing(&walk, &loop);
    fputs(ends ? "each byte of text, each directive and each pass is a step"
               : "no pass of it takes an argument, so it never ends",
          to);
}
