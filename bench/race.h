/* Times those who make the same calls. */
#ifndef RACE_H
#define RACE_H

#include "tasks.h"

#define MOST_RUNNERS 4

typedef struct runner {
    rounds *rounds;
    double best_ns; /* of a call */
    subject *subject;
    unsigned long repeats; /* for a round that is long enough to be timed */
} runner;

/* Gives each the best time of its rounds of these calls, from where the task starts. Ends the program if one answers other
 * than the task has it, or leaves another chip than the first. */
void race(const task *t, const call *calls, int count, runner *runners, int taking_part);

#endif
