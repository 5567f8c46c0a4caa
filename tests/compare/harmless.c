/* Changes after which the state is still sound, though a test that asks too much would say no. */
#include "damage.h"
#include "guarded.h"
#include "spots.h"

#include <string.h>

static int longer_tables(dice *d, state *s)
{
    s->working_words = CHIP_WORDS + below(d, MOST_WORDS - CHIP_WORDS + 1);
    s->kept_words = CHIP_WORDS + below(d, MOST_WORDS - CHIP_WORDS + 1);
    return 1;
}

static int any_sound_cursors(dice *d, uint64_t *table, uint64_t access)
{
    (void)access;
    any_cursors(d, table);
    return 1;
}

static int last_cursors(dice *d, uint64_t *table, uint64_t access)
{
    (void)d;
    (void)access;
    for (int k = 0; k < ENTRY_KINDS; k++)
        table[entry_kinds[k].cursor] = entry_kinds[k].count - 1;
    return 1;
}

static int cursors_that_differ(dice *d, state *s)
{
    settle(s, CHIP_RW);
    any_cursors(d, s->working);
    any_cursors(d, s->kept);
    return 1;
}

static int any_sound_events(dice *d, state *s)
{
    fill_events(d, s, below(d, CHIP_EVENTS + 1));
    return 1;
}

static void fill_bytes(dice *d, void *at, size_t from, size_t to)
{
    unsigned char *bytes = at;
    for (size_t n = from; n < to; n++)
        bytes[n] = (unsigned char)roll(d);
}

/* The bytes that carry nothing, in a session that is open or closed. */
static int bytes_behind_events(dice *d, state *s)
{
    for (uint32_t e = 0; e < CHIP_EVENTS; e++)
        fill_bytes(d, &s->session.events[e], offsetof(chip_event, place) + 1, sizeof(chip_event));
    return 1;
}

static int bytes_behind_session(dice *d, state *s)
{
    fill_bytes(d, &s->session, offsetof(chip_session, transaction) + 4, sizeof s->session);
    return 1;
}

static int kept_is_blank(dice *d, state *s)
{
    (void)d;
    settle(s, CHIP_RW);
    memset(s->kept, 0, sizeof s->kept);
    return 1;
}

static int working_is_blank(dice *d, state *s)
{
    (void)d;
    settle(s, CHIP_RW);
    s->session.ro = s->session.rw = 0;
    memset(s->working, 0, sizeof s->working);
    return 1;
}

/* A new model in the working table, with access, that the kept one does not have. */
static int access_of_new_model(dice *d, state *s)
{
    settle(s, CHIP_RW);
    uint32_t model = free_model(d, s->working);
    if (model == NOWHERE)
        return 0;
    s->working[model] = new_entry(d, any_schema(d));
    s->session.repositories |= (uint64_t)1 << (s->working[model] >> 32 & 0xff);
    *(one_in(d, 2) ? &s->session.ro : &s->session.rw) |= (uint64_t)1 << model;
    return 1;
}

/* One name for a model in each of two repositories and for a schema instance. */
static int one_name_thrice(dice *d, uint64_t *table, uint64_t access)
{
    uint32_t model = idle_model(d, table, access);
    uint32_t other = model == NOWHERE ? NOWHERE : idle_model(d, table, access | (uint64_t)1 << model);
    if (other == NOWHERE)
        return 0;
    uint64_t word = new_entry(d, any_schema(d));
    uint32_t schema_instance = any_entry(d, CHIP_SCHEMA_INSTANCES);
    table[model] = word;
    table[other] = word ^ one_bit(d, 32, 34);
    table[CHIP_SCHEMA_INSTANCE_AT(schema_instance)] = word;
    table[CHIP_SCHEMA_INSTANCE_AT(schema_instance) + 1] = 0;
    return 1;
}

static int names_of_one_chain(dice *d, uint64_t *table, uint64_t access)
{
    return chained_names(d, table, access) != 0;
}

/* References stay where no set holds both models any more. */
static int sets_emptied(dice *d, uint64_t *table, uint64_t access)
{
    (void)d;
    (void)access;
    for (uint32_t s = 0; s < CHIP_SCHEMA_INSTANCES; s++)
        table[CHIP_SCHEMA_INSTANCE_AT(s) + 1] = 0;
    return 1;
}

static int plate_of(dice *d, uint64_t *table, uint32_t value)
{
    uint64_t *plate = new_instance(d, table, 2, NULL);
    for (uint32_t k = 0; plate && k < definition(plate)->attributes; k++)
        set_attribute(plate, k, value);
    return plate != NULL;
}

static int set_values_of_0(dice *d, uint64_t *table, uint64_t access)
{
    (void)access;
    return plate_of(d, table, 0);
}

static int largest_values(dice *d, uint64_t *table, uint64_t access)
{
    (void)access;
    return plate_of(d, table, UINT32_MAX);
}

static int assembly_of_itself(dice *d, uint64_t *table, uint64_t access)
{
    (void)access;
    uint64_t *assembly = new_instance(d, table, 4, NULL);
    if (!assembly)
        return 0;
    set_attribute(assembly, definition(assembly)->reference, number_of(table, assembly));
    return 1;
}

const damage harmless_changes[] = {
    {"words from 739 on", NULL, longer_tables},
    {"any sound cursors", any_sound_cursors, NULL},
    {"cursors at the last numbers", last_cursors, NULL},
    {"cursors that differ under RW", NULL, cursors_that_differ},
    {"any sound events", NULL, any_sound_events},
    {"anything in the last two bytes of every event", NULL, bytes_behind_events},
    {"anything in the last four bytes of the session", NULL, bytes_behind_session},
    {"blank kept table under RW", NULL, kept_is_blank},
    {"blank working table under RW", NULL, working_is_blank},
    {"access of a model that is in the working table only", NULL, access_of_new_model},
    {"one name in two repositories and for a schema instance", one_name_thrice, NULL},
    {"names of one chain", names_of_one_chain, NULL},
    {"references between models that share no set", sets_emptied, NULL},
    {"set values of 0", set_values_of_0, NULL},
    {"values of 2^32 - 1", largest_values, NULL},
    {"an assembly that refers to itself", assembly_of_itself, NULL},
    {NULL, NULL, NULL},
};
