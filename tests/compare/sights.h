/* What a walk is to see and what no triple of operation, refusal and place tells of. */
#ifndef SIGHTS_H
#define SIGHTS_H

#include "call.h"

/* Nothing that came before counts for what the next calls see. */
void begin_walk(void);

/* Before each call: the session and the working table that it gets. */
void look(const chip_session *session, const uint64_t *working);

/* Counts what the call saw; `working` is the table after it. */
void see(const call *asked, const chip_answer *answer, const uint64_t *working);

/* Prints how many sights were seen and, if asked, the names of the others; returns how many others. */
int print_sights(int names);

#endif
