/* A tray, and those who answer it. */
#ifndef TRAY_H
#define TRAY_H

#include "../compare/side.h"

#define MOST_ORDERS 5000
#define MOST_PLACES (MOST_ORDERS + 50)

typedef struct tray {
    call orders[MOST_ORDERS];
    size_t count, places; /* orders, and places of the row for the answers */
    int null;             /* whether rows and tables of length 0 are null pointers */
} tray;

/* Who answers, with tables and rows of its own, each of which ends where its guard begins. */
typedef struct party {
    side side;
    tray_function *function;
    chip_order *orders_end;
    chip_result *answers_end;
    chip_answer own; /* the tray's */
} party;

party new_party(const char *name, tray_function *function);

/* Gives it the state and the tray. The row for the answers is blank before. */
void hand_over(party *p, const state *before, const tray *t);

/* The row for the answers. */
chip_result *answers_of(const party *p, const tray *t);

/* Whether the orders are as they were handed over. */
int orders_untouched(const party *p, const tray *t);

/* The tray's own answer, every place of the row, every field of the session and every word of both tables. */
int same_outcome(const party *one, const party *other, const tray *t);

/* Prints the tray's lengths and what differs after it. */
void print_outcomes(const party *one, const party *other, const tray *t);

#endif
