/* Why a directive is refused for the arguments in hand. */
#ifndef TOOLS_JUDGING_H
#define TOOLS_JUDGING_H

#include "hand.h"
#include "reading.h"

/* Nothing found; a v without an argument, of another kind, or out of range; a # out of range; ~:p at the first
   argument; a jump outside; the own argument missing, or of another kind. */
enum cause {
    CAUSE_NONE,
    V_MISSING,
    V_KIND,
    V_RANGE,
    REMAINING_RANGE,
    NONE_BEFORE,
    JUMP_OUTSIDE,
    OWN_MISSING,
    OWN_KIND
};

/* The cause, the place of the parameter that it lies in, the argument, and the value or the goal of the jump. */
struct finding {
    enum cause cause;
    size_t place, argument;
    int64_t value;
};

struct finding directive_judge(const struct directive *directive, const struct rule *rule, const struct hand *hand);

/* Whether the argument that a cause names is there, and is what is wrong. */
int cause_in_argument(enum cause cause);

/* The code that the library has for a cause; TILDE_DONE for none. */
uint32_t cause_code(enum cause cause);

#endif
