/* Damage to the session. */
#include "damage.h"
#include "spots.h"

/* ---- flags, repositories and the transaction ---- */

static int opened_above_1(dice *d, state *s)
{
    s->session.opened |= (uint32_t)one_bit(d, 1, 31);
    return 1;
}

static int recording_above_1(dice *d, state *s)
{
    open_up(s);
    s->session.recording |= (uint32_t)one_bit(d, 1, 31);
    return 1;
}

static int transaction_above_3(dice *d, state *s)
{
    settle(s, CHIP_NONE);
    s->session.transaction = (uint32_t)one_bit(d, 2, 31);
    s->session.transaction |= below(d, 4);
    return 1;
}

static int repository_above_7(dice *d, state *s)
{
    open_up(s);
    s->session.repositories |= one_bit(d, 8, 63);
    return 1;
}

/* ---- the events that are there ---- */

static int too_many_events(dice *d, state *s)
{
    fill_events(d, s, CHIP_EVENTS);
    s->session.count = one_in(d, 2) ? CHIP_EVENTS + 1 : CHIP_EVENTS + one_bit(d, 0, 63);
    return 1;
}

static chip_event *used_event(dice *d, state *s)
{
    fill_events(d, s, 1 + below(d, CHIP_EVENTS));
    return &s->session.events[any_entry(d, (uint32_t)s->session.count)];
}

static int event_of_refusal_0(dice *d, state *s)
{
    used_event(d, s)->refusal = CHIP_DONE;
    return 1;
}

static int event_of_refusal_1(dice *d, state *s)
{
    used_event(d, s)->refusal = CHIP_SY_ERR;
    return 1;
}

static int event_of_refusal_33(dice *d, state *s)
{
    used_event(d, s)->refusal = CHIP_NO_ROOM + 1;
    return 1;
}

static int event_of_large_refusal(dice *d, state *s)
{
    used_event(d, s)->refusal |= (uint8_t)one_bit(d, 6, 7);
    return 1;
}

static int event_of_place_8(dice *d, state *s)
{
    used_event(d, s)->place = CHIP_PLACE_REFERENCE + 1;
    return 1;
}

static int event_of_large_place(dice *d, state *s)
{
    used_event(d, s)->place |= (uint8_t)one_bit(d, 3, 7);
    return 1;
}

static int event_of_place_255(dice *d, state *s)
{
    used_event(d, s)->place = UINT8_MAX;
    return 1;
}

/* ---- the blank ones behind them ---- */

static chip_event *blank_event(dice *d, state *s)
{
    fill_events(d, s, below(d, CHIP_EVENTS));
    return &s->session.events[s->session.count + any_entry(d, CHIP_EVENTS - (uint32_t)s->session.count)];
}

static int operation_in_blank_event(dice *d, state *s)
{
    blank_event(d, s)->op = (uint32_t)one_bit(d, 0, 31);
    return 1;
}

static int refusal_in_blank_event(dice *d, state *s)
{
    blank_event(d, s)->refusal = (uint8_t)one_bit(d, 0, 7);
    return 1;
}

static int place_in_blank_event(dice *d, state *s)
{
    blank_event(d, s)->place = (uint8_t)one_bit(d, 0, 7);
    return 1;
}

/* ---- the access sets: apart, and of models that are live and can be reached ---- */

static uint64_t model_bit(uint32_t model)
{
    return model == NOWHERE ? 0 : (uint64_t)1 << model;
}

static int read_only(state *s, uint32_t model)
{
    s->session.ro |= model_bit(model);
    return model != NOWHERE;
}

static int read_write(state *s, uint32_t model)
{
    s->session.rw |= model_bit(model);
    return model != NOWHERE;
}

static int access_of_both_sorts(dice *d, state *s)
{
    settle(s, CHIP_RW);
    uint32_t model = open_model(d, s);
    return read_only(s, model) && read_write(s, model);
}

static int read_only_of_free_model(dice *d, state *s)
{
    settle(s, one_in(d, 2) ? CHIP_RO : CHIP_RW);
    return read_only(s, free_model(d, s->working));
}

static int read_write_of_free_model(dice *d, state *s)
{
    settle(s, CHIP_RW);
    return read_write(s, free_model(d, s->working));
}

/* Live in the kept table only. */
static int access_of_kept_model(dice *d, state *s)
{
    settle(s, CHIP_RW);
    uint32_t model = free_model(d, s->working);
    if (model == NOWHERE)
        return 0;
    if (s->kept[model] == 0)
        s->kept[model] = new_entry(d, any_schema(d));
    s->session.repositories |= (uint64_t)1 << (s->kept[model] >> 32 & 0xff);
    return one_in(d, 2) ? read_only(s, model) : read_write(s, model);
}

/* A live model, its repository closed and the access to that one's models ended. */
static uint32_t shut_model(dice *d, state *s)
{
    uint32_t chosen = live_model(d, s->working);
    if (chosen == NOWHERE)
        return NOWHERE;
    uint64_t repository = s->working[chosen] >> 32 & 0xff;
    s->session.repositories &= ~((uint64_t)1 << repository);
    for (uint32_t m = 0; m < CHIP_MODELS; m++)
        if ((s->working[m] >> 32 & 0xff) == repository) {
            s->session.ro &= ~model_bit(m);
            s->session.rw &= ~model_bit(m);
        }
    return chosen;
}

static int read_only_of_shut_model(dice *d, state *s)
{
    settle(s, one_in(d, 2) ? CHIP_RO : CHIP_RW);
    return read_only(s, shut_model(d, s));
}

static int read_write_of_shut_model(dice *d, state *s)
{
    settle(s, CHIP_RW);
    return read_write(s, shut_model(d, s));
}

/* ---- the access sets and the transaction ---- */

static int read_only_under_none(dice *d, state *s)
{
    settle(s, CHIP_NONE);
    return read_only(s, open_model(d, s));
}

static int read_only_under_aborted(dice *d, state *s)
{
    settle(s, CHIP_ABORTED);
    return read_only(s, open_model(d, s));
}

static int read_write_under_none(dice *d, state *s)
{
    settle(s, CHIP_NONE);
    return read_write(s, open_model(d, s));
}

static int read_write_under_aborted(dice *d, state *s)
{
    settle(s, CHIP_ABORTED);
    return read_write(s, open_model(d, s));
}

static int read_write_under_read_only(dice *d, state *s)
{
    settle(s, CHIP_RO);
    uint32_t model = open_model(d, s);
    s->session.ro &= ~model_bit(model);
    return read_write(s, model);
}

/* ---- a closed session ---- */

static int closed_with_recording(dice *d, state *s)
{
    (void)d;
    close_up(s);
    s->session.recording = 1;
    return 1;
}

static int closed_with_repository(dice *d, state *s)
{
    close_up(s);
    s->session.repositories = one_bit(d, 0, 7);
    return 1;
}

static int closed_in_transaction(dice *d, state *s)
{
    close_up(s);
    s->session.transaction = CHIP_RO + below(d, 3);
    return 1;
}

static int closed_with_read_only(dice *d, state *s)
{
    close_up(s);
    return read_only(s, live_model(d, s->working));
}

static int closed_with_read_write(dice *d, state *s)
{
    close_up(s);
    return read_write(s, live_model(d, s->working));
}

static int closed_with_events(dice *d, state *s)
{
    close_up(s);
    fill_events(d, s, 1 + below(d, CHIP_EVENTS));
    s->session.opened = 0;
    return 1;
}

static int closed_with_operation(dice *d, state *s)
{
    close_up(s);
    s->session.events[any_entry(d, CHIP_EVENTS)].op = (uint32_t)one_bit(d, 0, 31);
    return 1;
}

static int closed_with_place(dice *d, state *s)
{
    close_up(s);
    s->session.events[any_entry(d, CHIP_EVENTS)].place = (uint8_t)one_bit(d, 0, 7);
    return 1;
}

const damage session_damages[] = {
    {"opened is 2 or more", NULL, opened_above_1},
    {"recording is 2 or more", NULL, recording_above_1},
    {"transaction is 4 or more", NULL, transaction_above_3},
    {"open repository above 7", NULL, repository_above_7},
    {"more than sixteen events", NULL, too_many_events},
    {"event of refusal 0", NULL, event_of_refusal_0},
    {"event of refusal 1", NULL, event_of_refusal_1},
    {"event of refusal 33", NULL, event_of_refusal_33},
    {"event of a large refusal", NULL, event_of_large_refusal},
    {"event of place 8", NULL, event_of_place_8},
    {"event of a large place", NULL, event_of_large_place},
    {"event of place 255", NULL, event_of_place_255},
    {"operation in a blank event", NULL, operation_in_blank_event},
    {"refusal in a blank event", NULL, refusal_in_blank_event},
    {"place in a blank event", NULL, place_in_blank_event},
    {"RO and RW access of one model", NULL, access_of_both_sorts},
    {"RO access of a free model", NULL, read_only_of_free_model},
    {"RW access of a free model", NULL, read_write_of_free_model},
    {"access of a model that is in the kept table only", NULL, access_of_kept_model},
    {"RO access of a model of a closed repository", NULL, read_only_of_shut_model},
    {"RW access of a model of a closed repository", NULL, read_write_of_shut_model},
    {"RO access under none", NULL, read_only_under_none},
    {"RO access under aborted", NULL, read_only_under_aborted},
    {"RW access under none", NULL, read_write_under_none},
    {"RW access under aborted", NULL, read_write_under_aborted},
    {"RW access under RO", NULL, read_write_under_read_only},
    {"closed session with recording", NULL, closed_with_recording},
    {"closed session with a repository", NULL, closed_with_repository},
    {"closed session with a transaction", NULL, closed_in_transaction},
    {"closed session with RO access", NULL, closed_with_read_only},
    {"closed session with RW access", NULL, closed_with_read_write},
    {"closed session with events", NULL, closed_with_events},
    {"closed session with an operation in an event", NULL, closed_with_operation},
    {"closed session with a place in an event", NULL, closed_with_place},
    {NULL, NULL, NULL},
};
