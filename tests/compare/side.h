/* One who answers, with tables and a session of its own. */
#ifndef SIDE_H
#define SIDE_H

#include "state.h"

/* Each table ends where its guard begins. */
typedef struct side {
    const char *name;
    chip_function *function; /* of calls; NULL if it is asked none */
    chip_session session;
    uint64_t *working_end, *kept_end;
    size_t working_words, kept_words;
} side;

side new_side(const char *name, chip_function *function);

uint64_t *working_of(const side *s);
uint64_t *kept_of(const side *s);

/* Puts a state there. The words from CHIP_WORDS on get a pattern, another one in each table. */
void load(side *s, const state *from);
void store(const side *s, state *to);

/* The answer's session becomes the side's. */
chip_answer ask(side *s, const call *asked);

/* Whether the words from CHIP_WORDS on are as `load` left them. */
int tails_untouched(const side *s);

#endif
