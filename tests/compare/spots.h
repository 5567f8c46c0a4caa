/* Spots in a sound table where something can be changed and all else stays sound. */
#ifndef SPOTS_H
#define SPOTS_H

#include "dice.h"

#include "../model/dictionary.h"
#include "../model/entry_kinds.h"

#define NOWHERE UINT32_MAX

/* Each gives a number, the first and the last more often than others, or NOWHERE. */
uint32_t free_model(dice *d, const uint64_t *table);
uint32_t live_model(dice *d, const uint64_t *table);
uint32_t live_model_of(dice *d, const uint64_t *table, uint32_t schema);
uint32_t live_schema_instance(dice *d, const uint64_t *table);

/* A model, live or free, that has no instance, is in no set and not in `access`. */
uint32_t idle_model(dice *d, const uint64_t *table, uint64_t access);

/* A model or schema instance of any repository, with a name that no walk gives. */
uint64_t new_entry(dice *d, uint32_t schema);

/* Every idle model and every schema instance, its set emptied, gets a name of its own, and the library keeps all of these in
 * one chain. Gives the models. */
uint64_t chained_names(dice *d, uint64_t *table, uint64_t access);

uint32_t any_schema(dice *d);

/* Each cursor at the first, the last or any number. */
void any_cursors(dice *d, uint64_t *table);

/* One that no other instance refers to, made free; never `except`. */
uint64_t *vacate(dice *d, uint64_t *table, const uint64_t *except);

/* There, a new instance with nothing set; NULL without a spot or a model for it. */
uint64_t *new_instance(dice *d, uint64_t *table, uint32_t type, const uint64_t *except);
uint64_t *new_instance_of_any_type(dice *d, uint64_t *table);

/* A new instance whose type has a reference, which is set to `target`. */
uint64_t *new_referrer(dice *d, uint64_t *table, uint32_t type, uint64_t target, const uint64_t *except);

const entity_type *definition(const uint64_t *instance);
uint32_t number_of(const uint64_t *table, const uint64_t *instance);
void set_attribute(uint64_t *instance, uint32_t attribute, uint64_t value);

#endif
