/* All kinds of damage, and what a run did with each. */
#ifndef KINDS_H
#define KINDS_H

#include "damage.h"

typedef struct kind_count {
    const damage *kind;
    enum expectation expected;
    unsigned long done, unexpected;
} kind_count;

typedef struct kinds {
    kind_count counts[128];
    size_t total;
} kinds;

kinds all_kinds(void);
kind_count *any_kind(dice *d, kinds *of);

/* Counts an answer to a call on a state with this damage. */
void count_answer(kind_count *count, uint32_t refusal);

/* Prints how many kinds were done and, if asked, the names of the others; returns how many others. */
int print_kinds(const kinds *of, int names);

/* Prints the kinds that had answers other than expected, from all who were asked alike; returns how many. */
int print_unexpected(const kinds *of);

#endif
