/* Kinds of damage to a sound state. Those of tables and session each break one sentence of "Sound tables and a sound
 * session" and no other, as far as that can be. */
#ifndef DAMAGE_H
#define DAMAGE_H

#include "dice.h"
#include "state.h"

/* What the first call after it must answer: SY_ERR, anything else, or what it will. */
enum expectation { REFUSED, TAKEN, EITHER };

/* A damage gives 0 if the state has no place for it. One to a table keeps away from the models in `access`. */
typedef struct damage {
    const char *name;
    int (*to_table)(dice *d, uint64_t *table, uint64_t access);
    int (*to_state)(dice *d, state *s);
} damage;

/* Lists that end with a NULL name. */
extern const damage table_damages[];
extern const damage session_damages[];
extern const damage harmless_changes[];
extern const damage noises[];

/* To a table: in a read-write transaction one of the two, else both alike. */
int do_damage(const damage *kind, dice *d, state *s);

/* Where a walk begins: fresh, at times but for the cursors, which stand anywhere, and at times with longer tables. */
void start_fresh(dice *d, state *s);

/* Steps to another sound state. */
void open_up(state *s);
void close_up(state *s);
void settle(state *s, uint32_t transaction);
void fill_events(dice *d, state *s, uint32_t count);

/* A live working model, its repository opened; NOWHERE if there is none. */
uint32_t open_model(dice *d, state *s);

#endif
