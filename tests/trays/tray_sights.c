#include "tray_sights.h"

#include <stdio.h>

typedef tray_view view;

static int is_done(const view *v, size_t n)
{
    return v->answers[n].refusal == CHIP_DONE;
}

static int done(const view *v, size_t n, uint32_t op)
{
    return v->tray->orders[n].op == op && is_done(v, n);
}

static size_t count_done(const view *v)
{
    size_t count = 0;
    for (size_t n = 0; n < v->answered; n++)
        count += (size_t)is_done(v, n);
    return count;
}

/* ---- the rows ---- */

static int is_short(const view *v)
{
    return v->tray->places < v->tray->count;
}

static int is_empty(const view *v)
{
    return v->tray->count == 0;
}

static int empty_without_row(const view *v)
{
    return is_empty(v) && v->tray->places == 0 && !v->tray->null;
}

static int empty_of_null_pointers(const view *v)
{
    return is_empty(v) && v->tray->places == 0 && v->tray->null;
}

static int empty_with_row(const view *v)
{
    return is_empty(v) && v->tray->places > 0;
}

static int empty_on_unsound(const view *v)
{
    return is_empty(v) && v->unsound;
}

static int one_short(const view *v)
{
    return v->tray->places + 1 == v->tray->count && v->tray->places > 0;
}

static int half_as_long(const view *v)
{
    return v->tray->places > 0 && 2 * v->tray->places < v->tray->count;
}

static int no_row(const view *v)
{
    return is_short(v) && v->tray->places == 0;
}

static int short_in_rw(const view *v)
{
    return is_short(v) && !v->unsound && v->before->session.transaction == CHIP_RW;
}

static int short_on_unsound(const view *v)
{
    return is_short(v) && v->unsound;
}

static int as_long(const view *v)
{
    return !is_empty(v) && v->tray->places == v->tray->count;
}

static int one_longer(const view *v)
{
    return !is_empty(v) && v->tray->places == v->tray->count + 1;
}

static int many_longer(const view *v)
{
    return !is_empty(v) && v->tray->places > v->tray->count + 20;
}

static int one_order(const view *v)
{
    return v->answered == 1;
}

static int most_orders(const view *v)
{
    return v->answered == MOST_ORDERS;
}

/* ---- where a tray begins, and where it is cut ---- */

/* With some order that is done. */
static int begins(const view *v, uint32_t opened, uint32_t transaction)
{
    return v->before->session.opened == opened && v->before->session.transaction == transaction && count_done(v) > 0;
}

static int table_of_null_pointer(const view *v)
{
    return v->answered > 0 && v->tray->null && (v->before->working_words == 0 || v->before->kept_words == 0);
}

static int begins_unsound(const view *v)
{
    return v->answered > 1 && v->answers[0].refusal == CHIP_SY_ERR;
}

static int is_cut(const view *v)
{
    return v->cut > 0 && v->cut < v->answered;
}

static int cut_at_begin(const view *v)
{
    return v->answered > 0 && v->cut == 0;
}

static int cut_at_end(const view *v)
{
    return v->answered > 0 && v->cut == v->answered;
}

static int cut_between_done(const view *v)
{
    return is_cut(v) && is_done(v, v->cut - 1) && is_done(v, v->cut);
}

static int cut_behind_refused(const view *v)
{
    return is_cut(v) && v->answers[v->cut - 1].refusal > CHIP_SY_ERR && is_done(v, v->cut);
}

/* ---- what is inside ---- */

/* The first order from `n` on that is done, of that operation; how many were answered if none is. */
static size_t next_done(const view *v, size_t n, uint32_t op)
{
    while (n < v->answered && !done(v, n, op))
        n++;
    return n;
}

/* One is done and then the other. */
static int in_turn(const view *v, uint32_t first, uint32_t then)
{
    return next_done(v, next_done(v, 0, first), then) < v->answered;
}

/* A later order of that operation, done, names in its first argument what an earlier one gave. */
static int given_and_used(const view *v, uint32_t creation, uint32_t use)
{
    for (size_t n = 0; (n = next_done(v, n, creation)) < v->answered; n++)
        for (size_t later = n; (later = next_done(v, later, use)) < v->answered; later++)
            if (v->tray->orders[later].a == v->answers[n].value)
                return 1;
    return 0;
}

static int put_and_read_back(const view *v)
{
    for (size_t n = 0; (n = next_done(v, n, CHIP_PUT)) < v->answered; n++)
        for (size_t later = n; (later = next_done(v, later, CHIP_GET)) < v->answered; later++) {
            const call *put = &v->tray->orders[n], *get = &v->tray->orders[later];
            if (put->a == get->a && put->b == get->b && put->c == v->answers[later].value && put->c != 0)
                return 1;
        }
    return 0;
}

static int number_given_twice(const view *v)
{
    for (size_t n = 0; (n = next_done(v, n, CHIP_CREATE_INSTANCE)) < v->answered; n++)
        for (size_t later = n + 1; (later = next_done(v, later, CHIP_CREATE_INSTANCE)) < v->answered; later++)
            if (v->answers[n].value == v->answers[later].value)
                return 1;
    return 0;
}

/* ---- refusals inside ---- */

static int refused_at(const view *v, uint32_t refusal, uint32_t place)
{
    for (size_t n = 0; n < v->answered; n++)
        if (v->answers[n].refusal == refusal && v->answers[n].place == place)
            return 1;
    return 0;
}

/* The most events that the orders add between two sessions. */
static size_t events_added(const view *v)
{
    uint32_t recording = v->before->session.recording;
    size_t added = 0, most = 0;
    for (size_t n = 0; n < v->answered && !v->unsound; n++) {
        if (done(v, n, CHIP_OPEN_SESSION) || done(v, n, CHIP_RECORDING_ON))
            recording = 1;
        if (done(v, n, CHIP_CLOSE_SESSION) || done(v, n, CHIP_RECORDING_OFF))
            recording = 0;
        if (done(v, n, CHIP_CLOSE_SESSION))
            added = 0;
        added += recording && !is_done(v, n);
        most = added > most ? added : most;
    }
    return most;
}

static int recorded_in_the_middle(const view *v)
{
    return events_added(v) > 0 && is_done(v, 0) && is_done(v, v->answered - 1);
}

static int more_events_than_fit(const view *v)
{
    return events_added(v) > CHIP_EVENTS;
}

static int unrecorded(const view *v)
{
    size_t off = next_done(v, 0, CHIP_RECORDING_OFF);
    return off + 1 < v->answered && v->answers[off + 1].refusal > CHIP_SY_ERR;
}

static int all_done(const view *v)
{
    return v->answered >= 8 && count_done(v) == v->answered;
}

static int none_done(const view *v)
{
    return v->answered >= 8 && count_done(v) == 0 && v->answers[0].refusal != CHIP_SY_ERR;
}

typedef struct sight {
    const char *name;
    int (*is_seen)(const view *v);
} sight;

static const sight sights[] = {
    {"an empty tray, and a row of no place", empty_without_row},
    {"an empty tray of null pointers", empty_of_null_pointers},
    {"an empty tray, and a row that stays", empty_with_row},
    {"an empty tray on an unsound state", empty_on_unsound},
    {"a row that is one place short", one_short},
    {"a row that is less than half as long", half_as_long},
    {"orders, and a row of no place", no_row},
    {"a row that is too short, in RW", short_in_rw},
    {"a row that is too short, on an unsound state", short_on_unsound},
    {"a row that is as long", as_long},
    {"a row that is one place longer", one_longer},
    {"a row that is many places longer", many_longer},
    {"a tray of one order", one_order},
    {"a tray of 5,000 orders", most_orders},
    {"a tray begins on an unsound state", begins_unsound},
    {"a table that is a null pointer", table_of_null_pointer},
    {"cut before the first order", cut_at_begin},
    {"cut behind the last order", cut_at_end},
    {"cut between two orders that are done", cut_between_done},
    {"cut behind a refusal", cut_behind_refused},
    {"what was put is read back", put_and_read_back},
    {"a number is given twice", number_given_twice},
    {"a refusal is recorded between orders that are done", recorded_in_the_middle},
    {"more than sixteen refusals are recorded", more_events_than_fit},
    {"recording is off, and a refusal comes next", unrecorded},
    {"eight orders or more, all done", all_done},
    {"eight orders or more, all refused", none_done},
};

typedef struct sight_of_two {
    const char *name;
    int (*is_seen)(const view *v, uint32_t one, uint32_t other);
    uint32_t one, other;
} sight_of_two;

static const sight_of_two sights_of_two[] = {
    {"a tray begins with no session", begins, 0, CHIP_NONE},
    {"a tray begins with no transaction", begins, 1, CHIP_NONE},
    {"a tray begins in RO", begins, 1, CHIP_RO},
    {"a tray begins in RW", begins, 1, CHIP_RW},
    {"a tray begins in an aborted transaction", begins, 1, CHIP_ABORTED},
    {"a put and a commit", in_turn, CHIP_PUT, CHIP_COMMIT},
    {"a commit and a put", in_turn, CHIP_COMMIT, CHIP_PUT},
    {"a put and an abort", in_turn, CHIP_PUT, CHIP_ABORT},
    {"an abort, and RW access after it", in_turn, CHIP_ABORT, CHIP_RW_ACCESS},
    {"a put and end, commit", in_turn, CHIP_PUT, CHIP_END_COMMIT},
    {"a put and end, abort", in_turn, CHIP_PUT, CHIP_END_ABORT},
    {"a put and a fault", in_turn, CHIP_PUT, CHIP_STORAGE_FAULT},
    {"a fault, and a transaction after it", in_turn, CHIP_STORAGE_FAULT, CHIP_START_RW},
    {"a put, and the session is closed", in_turn, CHIP_PUT, CHIP_CLOSE_SESSION},
    {"a session is opened and closed", in_turn, CHIP_OPEN_SESSION, CHIP_CLOSE_SESSION},
    {"a session is closed and opened", in_turn, CHIP_CLOSE_SESSION, CHIP_OPEN_SESSION},
    {"a read, and a model is promoted", in_turn, CHIP_GET, CHIP_PROMOTE},
    {"a model is made and given access", given_and_used, CHIP_CREATE_MODEL, CHIP_RW_ACCESS},
    {"an instance is made and put to", given_and_used, CHIP_CREATE_INSTANCE, CHIP_PUT},
    {"an instance is made and deleted", given_and_used, CHIP_CREATE_INSTANCE, CHIP_DELETE_INSTANCE},
    {"NO_ROOM for a model", refused_at, CHIP_NO_ROOM, CHIP_PLACE_MODELS},
    {"NO_ROOM for a schema instance", refused_at, CHIP_NO_ROOM, CHIP_PLACE_SCHEMA_INSTANCES},
    {"NO_ROOM for an instance", refused_at, CHIP_NO_ROOM, CHIP_PLACE_INSTANCES},
    {"a deletion is held back; place 7", refused_at, CHIP_MX_NRW, CHIP_PLACE_REFERENCE},
};

#define COUNT(list) ((int)(sizeof list / sizeof *list))
#define SIGHTS COUNT(sights)
#define SIGHTS_OF_TWO COUNT(sights_of_two)

static int seen[SIGHTS], seen_of_two[SIGHTS_OF_TWO];

void see_tray(const tray_view *v)
{
    for (int n = 0; n < SIGHTS; n++)
        seen[n] = seen[n] || sights[n].is_seen(v);
    for (int n = 0; n < SIGHTS_OF_TWO; n++)
        seen_of_two[n] = seen_of_two[n] || sights_of_two[n].is_seen(v, sights_of_two[n].one, sights_of_two[n].other);
}

int print_tray_sights(int names)
{
    int all = SIGHTS + SIGHTS_OF_TWO, missing = 0;
    for (int n = 0; n < SIGHTS; n++)
        missing += !seen[n];
    for (int n = 0; n < SIGHTS_OF_TWO; n++)
        missing += !seen_of_two[n];
    printf("sights of the trays: %d of %d seen\n", all - missing, all);
    for (int n = 0; names && n < SIGHTS; n++)
        if (!seen[n])
            printf("  not seen: %s\n", sights[n].name);
    for (int n = 0; names && n < SIGHTS_OF_TWO; n++)
        if (!seen_of_two[n])
            printf("  not seen: %s\n", sights_of_two[n].name);
    return missing;
}
