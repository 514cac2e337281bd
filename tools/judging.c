#include "judging.h"

#include "entries.h"

#include <tilde.h>

uint32_t cause_code(enum cause cause)
{
    static const uint8_t codes[] = {
        [CAUSE_NONE] = TILDE_DONE,          [V_MISSING] = TILDE_NO_ARGUMENT,        [V_KIND] = TILDE_WRONG_KIND,
        [V_RANGE] = TILDE_OUT_OF_RANGE,     [REMAINING_RANGE] = TILDE_OUT_OF_RANGE, [NONE_BEFORE] = TILDE_NO_ARGUMENT,
        [JUMP_OUTSIDE] = TILDE_NO_ARGUMENT, [OWN_MISSING] = TILDE_NO_ARGUMENT,      [OWN_KIND] = TILDE_WRONG_KIND,
    };
    return codes[cause];
}

int cause_in_argument(enum cause cause)
{
    return cause == V_KIND || cause == V_RANGE || cause == OWN_KIND;
}

static int in_range(const struct place *place, int64_t value)
{
    return value >= (int64_t)place->least && value <= (int64_t)place->most;
}

/* A v: it takes the next argument, which is to be a character or a number in range by its place. */
static enum cause judge_v(const struct place *place, struct hand *hand, int64_t *value)
{
    if (hand->next >= hand->count)
        return V_MISSING;
    if (hand_kind(hand, hand->next) != (place->character ? TILDE_CHARACTER : TILDE_INTEGER))
        return V_KIND;
    /* a vet has kinds and no values, and takes no v */
    *value = hand->table == NULL ? 0 : entry_at(hand->table, hand->first + hand->next).number;
    if (!place->character && !in_range(place, *value))
        return V_RANGE;
    hand->next++;
    return CAUSE_NONE;
}

/* The parameters from the left, as far as one is wrong. The finding is left with the value of the first. */
static struct finding judge_parameters(const struct directive *directive, const struct rule *rule, struct hand *hand)
{
    struct finding finding = {.cause = CAUSE_NONE};
    int64_t first = rule->letter == '*' && !directive->at ? 1 : 0;
    for (size_t i = 0; i < directive->count && i < places_of(rule) && finding.cause == CAUSE_NONE; i++) {
        const struct parameter *parameter = directive->parameters + i;
        finding = (struct finding){CAUSE_NONE, i, hand->next, parameter->value};
        if (parameter->form == FORM_NEXT) {
            finding.cause = judge_v(rule->places + i, hand, &finding.value);
        } else if (parameter->form == FORM_REMAINING) {
            finding.value = (int64_t)(hand->count - hand->next);
            finding.cause = in_range(rule->places + i, finding.value) ? CAUSE_NONE : REMAINING_RANGE;
        }
        if (i == 0 && parameter->form != FORM_EMPTY)
            first = finding.value;
    }
    if (finding.cause == CAUSE_NONE)
        finding.value = first;
    return finding;
}

static struct finding judge_jump(const struct directive *directive, const struct hand *hand, int64_t n)
{
    const int64_t from = (int64_t)hand->next, goal = directive->at ? n : directive->colon ? from - n : from + n;
    const int inside = goal >= 0 && goal <= (int64_t)hand->count;
    return (struct finding){inside ? CAUSE_NONE : JUMP_OUTSIDE, 0, hand->next, goal};
}

static struct finding judge_own(const struct directive *directive, const struct rule *rule, const struct hand *hand)
{
    const int back = rule->letter == 'p' && directive->colon;
    struct finding finding = {.argument = hand->next};
    if (back && hand->next == 0)
        finding.cause = NONE_BEFORE;
    else if (hand->next - (back ? 1 : 0) >= hand->count)
        finding.cause = OWN_MISSING;
    else if ((rule->kinds >> hand_kind(hand, hand->next - (back ? 1 : 0)) & 1u) == 0)
        finding.cause = OWN_KIND;
    return finding;
}

struct finding directive_judge(const struct directive *directive, const struct rule *rule, const struct hand *hand)
{
    struct hand left = *hand;
    const struct finding finding = judge_parameters(directive, rule, &left);
    if (finding.cause != CAUSE_NONE)
        return finding;
    if (rule->letter == '*')
        return judge_jump(directive, &left, finding.value);
    return takes_argument(directive) ? judge_own(directive, rule, &left) : finding;
}
