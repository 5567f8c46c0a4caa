#include "spots.h"

#include <string.h>

/* One of the numbers that suit, going round from any. */
static uint32_t pick(dice *d, const uint8_t *suits, uint32_t count)
{
    uint32_t start = any_entry(d, count);
    for (uint32_t n = 0; n < count; n++)
        if (suits[(start + n) % count])
            return (start + n) % count;
    return NOWHERE;
}

uint32_t free_model(dice *d, const uint64_t *table)
{
    uint8_t suits[CHIP_MODELS];
    for (uint32_t m = 0; m < CHIP_MODELS; m++)
        suits[m] = table[m] == 0;
    return pick(d, suits, CHIP_MODELS);
}

uint32_t live_model(dice *d, const uint64_t *table)
{
    uint8_t suits[CHIP_MODELS];
    for (uint32_t m = 0; m < CHIP_MODELS; m++)
        suits[m] = table[m] != 0;
    return pick(d, suits, CHIP_MODELS);
}

uint32_t live_model_of(dice *d, const uint64_t *table, uint32_t schema)
{
    uint8_t suits[CHIP_MODELS];
    for (uint32_t m = 0; m < CHIP_MODELS; m++)
        suits[m] = table[m] >> 40 == schema;
    return pick(d, suits, CHIP_MODELS);
}

uint32_t live_schema_instance(dice *d, const uint64_t *table)
{
    uint8_t suits[CHIP_SCHEMA_INSTANCES];
    for (uint32_t s = 0; s < CHIP_SCHEMA_INSTANCES; s++)
        suits[s] = table[CHIP_SCHEMA_INSTANCE_AT(s)] != 0;
    return pick(d, suits, CHIP_SCHEMA_INSTANCES);
}

uint32_t idle_model(dice *d, const uint64_t *table, uint64_t access)
{
    uint8_t suits[CHIP_MODELS];
    uint64_t busy = access;
    for (uint32_t s = 0; s < CHIP_SCHEMA_INSTANCES; s++)
        busy |= table[CHIP_SCHEMA_INSTANCE_AT(s) + 1];
    for (uint32_t i = 0; i < CHIP_INSTANCES; i++)
        if (table[CHIP_INSTANCE_AT(i)] != 0)
            busy |= (uint64_t)1 << (table[CHIP_INSTANCE_AT(i)] >> 8 & 0xff);
    for (uint32_t m = 0; m < CHIP_MODELS; m++)
        suits[m] = !(busy >> m & 1);
    return pick(d, suits, CHIP_MODELS);
}

uint64_t new_entry(dice *d, uint32_t schema)
{
    uint64_t name = 0xc0000000 + below(d, 0x10000000);
    return name | (uint64_t)below(d, CHIP_REPOSITORIES) << 32 | (uint64_t)schema << 40;
}

/* The library's chain of a name: crates/tables/src/names.rt. */
static uint32_t chain_of(uint32_t name)
{
    return (uint64_t)name * 0x85ebca6b >> 25 & 127;
}

/* The next name of its chain. */
static uint64_t next_in_chain(uint64_t entry)
{
    uint32_t chain = chain_of((uint32_t)entry);
    do
        entry++;
    while (chain_of((uint32_t)entry) != chain);
    return entry;
}

uint64_t chained_names(dice *d, uint64_t *table, uint64_t access)
{
    uint64_t models = 0;
    uint64_t entry = new_entry(d, any_schema(d)) ^ 0x10000000;
    for (uint32_t s = 0; s < CHIP_SCHEMA_INSTANCES; s++) {
        table[CHIP_SCHEMA_INSTANCE_AT(s)] = entry = next_in_chain(entry);
        table[CHIP_SCHEMA_INSTANCE_AT(s) + 1] = 0;
    }
    for (uint32_t m; (m = idle_model(d, table, access | models)) != NOWHERE; models |= (uint64_t)1 << m)
        table[m] = entry = next_in_chain(entry);
    return models;
}

uint32_t any_schema(dice *d)
{
    return 1 + below(d, 2);
}

void any_cursors(dice *d, uint64_t *table)
{
    for (int k = 0; k < ENTRY_KINDS; k++)
        table[entry_kinds[k].cursor] = any_entry(d, entry_kinds[k].count);
}

const entity_type *definition(const uint64_t *instance)
{
    return &dictionary[(instance[0] & 0xff) - 1];
}

uint32_t number_of(const uint64_t *table, const uint64_t *instance)
{
    return (uint32_t)(instance - table - CHIP_INSTANCE_AT(0)) / 5;
}

void set_attribute(uint64_t *instance, uint32_t attribute, uint64_t value)
{
    instance[0] |= (uint64_t)1 << (16 + attribute);
    instance[1 + attribute] = value;
}

uint64_t *vacate(dice *d, uint64_t *table, const uint64_t *except)
{
    uint8_t suits[CHIP_INSTANCES];
    memset(suits, 1, sizeof suits);
    if (except)
        suits[number_of(table, except)] = 0;
    for (uint32_t i = 0; i < CHIP_INSTANCES; i++) {
        const uint64_t *instance = table + CHIP_INSTANCE_AT(i);
        if (instance[0] == 0)
            continue;
        uint32_t reference = definition(instance)->reference;
        if (instance[0] >> (16 + reference) & 1 && instance[1 + reference] != i)
            suits[instance[1 + reference]] = 0;
    }
    uint32_t chosen = pick(d, suits, CHIP_INSTANCES);
    if (chosen == NOWHERE)
        return NULL;
    return memset(table + CHIP_INSTANCE_AT(chosen), 0, 5 * sizeof *table);
}

uint64_t *new_instance(dice *d, uint64_t *table, uint32_t type, const uint64_t *except)
{
    uint32_t model = live_model_of(d, table, dictionary[type].schema);
    uint64_t *instance = model == NOWHERE ? NULL : vacate(d, table, except);
    if (instance)
        instance[0] = 1 + type + (model << 8);
    return instance;
}

uint64_t *new_instance_of_any_type(dice *d, uint64_t *table)
{
    return new_instance(d, table, below(d, CHIP_TYPES), NULL);
}

uint64_t *new_referrer(dice *d, uint64_t *table, uint32_t type, uint64_t target, const uint64_t *except)
{
    uint64_t *instance = new_instance(d, table, type, except);
    if (instance)
        set_attribute(instance, definition(instance)->reference, target);
    return instance;
}
