/* The calls that the collector makes of the system, counted, each of which a test can turn into something else. To be
   linked with --wrap=NAME for each name that calls.c wraps. */
#ifndef CALLS_H
#define CALLS_H

#include <stddef.h>

enum plan {
    /* each call does what it is asked for, and is not counted */
    PLAIN,
    /* before the call of the planned number, the first being 0 */
    KILLED,
    STOPPED,
    /* that call fails with EIO */
    FAILING,
    /* every read brings three bytes at most */
    SHORT,
    /* what befalls the file FILE_IN_PLAN after the first read of it, or before it is opened */
    GROWN,
    SHRUNK,
    TOUCHED,
    CUT,
    REPLACED,
    GONE,
    UNREADABLE,
    /* another run puts the new pack in place before it is locked */
    RACED,
    /* the files of this user are those of another */
    OTHERS,
    /* standard error is a terminal */
    TERMINAL
};

#define FILE_IN_PLAN "file-05"

/* The plan of this process, and the number of the call that it is about. */
extern enum plan plan;
extern size_t planned;

/* What the test and its children share: whether a run came to the call that was planned, and what matters for the
   order: m(emory for a line), w(rites), s(ync of the file), r(ename), f(older synced). */
struct calls {
    int came;
    char order[16];
};

extern struct calls *calls;

#endif
