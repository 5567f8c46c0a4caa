/* States made by chance, sound or not. */
#include "damage.h"
#include "guarded.h"

#include "../model/entry_kinds.h"

#include <string.h>

static uint64_t *any_word(dice *d, state *s)
{
    uint64_t *table = one_in(d, 2) ? s->working : s->kept;
    return table + below(d, CHIP_WORDS);
}

static int bits_of_tables(dice *d, state *s)
{
    for (uint32_t flips = 1 + below(d, 3); flips > 0; flips--) {
        uint64_t *word = any_word(d, s);
        *word ^= one_bit(d, 0, 63);
    }
    return 1;
}

/* In both tables alike, low bits more often. */
static int bits_of_both_tables(dice *d, state *s)
{
    uint32_t at = below(d, CHIP_WORDS);
    uint64_t bit = one_bit(d, 0, one_in(d, 2) ? 63 : 20);
    memcpy(s->kept, s->working, sizeof s->kept);
    s->working[at] ^= bit;
    s->kept[at] ^= bit;
    return 1;
}

static int bit_of_session(dice *d, state *s)
{
    chip_session *session = &s->session;
    chip_event *event = &session->events[below(d, CHIP_EVENTS)];
    uint8_t *const bytes[] = {&event->refusal, &event->place};
    uint32_t *const small[] = {&session->opened, &session->recording, &session->transaction, &event->op};
    uint64_t *const large[] = {&session->count, &session->repositories, &session->ro, &session->rw};
    uint32_t field = below(d, 10);
    if (field < 2)
        *bytes[field] ^= (uint8_t)one_bit(d, 0, 7);
    else if (field < 6)
        *small[field - 2] ^= (uint32_t)one_bit(d, 0, one_in(d, 2) ? 31 : 4);
    else
        *large[field - 6] ^= one_bit(d, 0, field < 8 && one_in(d, 2) ? 8 : 63);
    return 1;
}

/* Every field within or just beyond its range. */
static int near_session(dice *d, state *s)
{
    fill_events(d, s, below(d, CHIP_EVENTS + 1));
    s->session.opened = !one_in(d, 8);
    s->session.recording = below(d, 2);
    s->session.transaction = below(d, one_in(d, 8) ? 5 : 4);
    s->session.repositories = below(d, one_in(d, 8) ? 512 : 256);
    s->session.ro = one_in(d, 2) ? 0 : one_bit(d, 0, 63);
    s->session.rw = one_in(d, 2) ? 0 : one_bit(d, 0, 63);
    return 1;
}

static int wild_session(dice *d, state *s)
{
    s->session.opened = (uint32_t)roll(d);
    s->session.recording = (uint32_t)roll(d);
    s->session.transaction = (uint32_t)roll(d);
    s->session.repositories = roll(d);
    s->session.ro = roll(d);
    s->session.rw = roll(d);
    s->session.count = roll(d);
    for (uint32_t e = 0; e < CHIP_EVENTS; e++) {
        s->session.events[e].op = (uint32_t)roll(d);
        s->session.events[e].refusal = (uint8_t)roll(d);
        s->session.events[e].place = (uint8_t)roll(d);
    }
    return 1;
}

static int wild_tables(dice *d, state *s)
{
    for (uint32_t n = 0; n < CHIP_WORDS; n++) {
        s->working[n] = roll(d);
        s->kept[n] = one_in(d, 2) ? s->working[n] : roll(d);
    }
    return 1;
}

/* Blank but for a few entries that may or may not fit each other. */
static int sparse_tables(dice *d, state *s)
{
    memset(s->working, 0, sizeof s->working);
    for (uint32_t n = 1 + below(d, 4); n > 0; n--) {
        uint64_t *model = s->working + CHIP_MODEL_AT(any_entry(d, CHIP_MODELS));
        model[0] = below(d, 2) + ((uint64_t)1 << 40);
        uint64_t *schema_instance = s->working + CHIP_SCHEMA_INSTANCE_AT(any_entry(d, CHIP_SCHEMA_INSTANCES));
        schema_instance[0] = below(d, 2) + ((uint64_t)1 << 40);
        schema_instance[1] = below(d, 2);
        uint64_t *instance = s->working + CHIP_INSTANCE_AT(any_entry(d, CHIP_INSTANCES));
        instance[0] = below(d, 12);
        instance[0] += 0x10000 * below(d, 2);
        instance[1] = below(d, 2);
    }
    memcpy(s->kept, s->working, sizeof s->kept);
    s->session.ro = s->session.rw = 0;
    return 1;
}

/* Each within its range or just beyond. */
static int near_cursors(dice *d, state *s)
{
    for (int k = 0; k < ENTRY_KINDS; k++) {
        uint64_t *working = s->working + entry_kinds[k].cursor, *kept = s->kept + entry_kinds[k].cursor;
        *working = any_entry(d, entry_kinds[k].count + (uint32_t)one_in(d, 4));
        *kept = one_in(d, 4) ? any_entry(d, entry_kinds[k].count + 1) : *working;
    }
    return 1;
}

static int any_lengths(dice *d, state *s)
{
    s->working_words = below(d, MOST_WORDS + 1);
    s->kept_words = below(d, MOST_WORDS + 1);
    return 1;
}

static int lengths_about_739(dice *d, state *s)
{
    s->working_words = CHIP_WORDS - 1 + below(d, 3);
    s->kept_words = CHIP_WORDS - 1 + below(d, 3);
    return 1;
}

const damage noises[] = {
    {"bits of the tables flipped", NULL, bits_of_tables},
    {"a bit of both tables flipped", NULL, bits_of_both_tables},
    {"a bit of the session flipped", NULL, bit_of_session},
    {"random session near a sound one", NULL, near_session},
    {"random session", NULL, wild_session},
    {"random tables", NULL, wild_tables},
    {"random tables of few entries", NULL, sparse_tables},
    {"random lengths", NULL, any_lengths},
    {"cursors near sound ones", NULL, near_cursors},
    {"lengths about 739", NULL, lengths_about_739},
    {NULL, NULL, NULL},
};
