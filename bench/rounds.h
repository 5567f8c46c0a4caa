/* What is timed. rounds.c is compiled once for each side, which SIDE, CALL, CORE and TRAY name. */
#ifndef ROUNDS_H
#define ROUNDS_H

#include "../tests/compare/call.h"

#define MOST_CALLS 1024

typedef struct subject {
    chip chip;
    chip_result answers[MOST_CALLS]; /* to each call of the last round */
    chip_result own;                 /* of the last tray */
} subject;

/* Makes the calls in turn, all of them `repeats` times. */
typedef void rounds(subject *on, const call *calls, int count, unsigned long repeats);

/* With the soundness test. */
rounds library_calls, model_calls, clang_calls;

/* Without it. */
rounds library_cores, model_cores, clang_cores;

/* All calls of a round as one tray. */
rounds library_trays, model_trays, clang_trays;

#endif
