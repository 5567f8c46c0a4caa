#include "damage.h"

#include "spots.h"

#include <string.h>

int do_damage(const damage *kind, dice *d, state *s)
{
    if (kind->to_state)
        return kind->to_state(d, s);
    uint64_t access = s->session.ro | s->session.rw;
    if (s->session.transaction == CHIP_RW)
        return kind->to_table(d, one_in(d, 2) ? s->working : s->kept, access);
    if (!kind->to_table(d, s->working, access))
        return 0;
    memcpy(s->kept, s->working, sizeof s->kept);
    return 1;
}

static size_t any_length(dice *d)
{
    return one_in(d, 4) ? CHIP_WORDS + below(d, 40) : CHIP_WORDS;
}

void start_fresh(dice *d, state *s)
{
    memset(s, 0, sizeof *s);
    s->working_words = any_length(d);
    s->kept_words = any_length(d);
    if (one_in(d, 2)) {
        any_cursors(d, s->working);
        memcpy(s->kept, s->working, sizeof s->kept);
    }
}

void open_up(state *s)
{
    s->session.opened = 1;
}

void close_up(state *s)
{
    memcpy(s->kept, s->working, sizeof s->kept);
    s->session = (chip_session){0};
}

void settle(state *s, uint32_t transaction)
{
    open_up(s);
    if (s->session.transaction == transaction)
        return;
    memcpy(s->kept, s->working, sizeof s->kept);
    s->session.ro = 0;
    s->session.rw = 0;
    s->session.transaction = transaction;
}

void fill_events(dice *d, state *s, uint32_t count)
{
    open_up(s);
    s->session.count = count;
    for (uint32_t e = 0; e < CHIP_EVENTS; e++) {
        chip_event *event = &s->session.events[e];
        event->op = e < count ? edge(d) : 0;
        event->refusal = e < count ? (uint8_t)(CHIP_FN_NAVL + below(d, CHIP_NO_ROOM - CHIP_FN_NAVL + 1)) : 0;
        event->place = e < count ? (uint8_t)below(d, CHIP_PLACE_REFERENCE + 1) : 0;
    }
}

uint32_t open_model(dice *d, state *s)
{
    uint32_t model = live_model(d, s->working);
    if (model != NOWHERE)
        s->session.repositories |= (uint64_t)1 << (s->working[model] >> 32 & 0xff);
    return model;
}
