#include "sights.h"

#include "../model/dictionary.h"
#include "../model/entry_kinds.h"

#include <stdio.h>

#define NO_NUMBER UINT32_MAX

/* What a walk remembers of the calls so far. */
typedef struct memory {
    chip_session before;           /* of the call in hand, and the cursors */
    uint64_t cursors[ENTRY_KINDS];
    uint64_t woken;                /* models whose access a read gave */
    uint32_t pending[ENTRY_KINDS]; /* the number that was given first since the last commit or drop */
    uint32_t dropped[ENTRY_KINDS]; /* the one of these that a drop took back, until another is given */
    uint32_t dropped_by[ENTRY_KINDS];
} memory;

typedef struct view {
    const call *asked;
    const chip_session *before;
    const chip_answer *answer;
    const uint64_t *working;
    const memory *memory;
    int kind; /* which entries a sight of numbers is about */
} view;

static int done(const view *v, uint32_t op)
{
    return v->asked->op == op && v->answer->refusal == CHIP_DONE;
}

static int done_under(const view *v, uint32_t op, uint32_t transaction)
{
    return done(v, op) && v->before->transaction == transaction;
}

static int commits(const view *v)
{
    return done_under(v, CHIP_COMMIT, CHIP_RW) || done_under(v, CHIP_END_COMMIT, CHIP_RW);
}

static int drops(const view *v)
{
    return done_under(v, CHIP_CLOSE_SESSION, CHIP_RW) || done_under(v, CHIP_ABORT, CHIP_RW) ||
           done_under(v, CHIP_END_ABORT, CHIP_RW) || done_under(v, CHIP_STORAGE_FAULT, CHIP_RW);
}

static int refused(const view *v, uint32_t op, uint32_t refusal)
{
    return v->asked->op == op && v->answer->refusal == refusal;
}

static int refused_at(const view *v, uint32_t op, uint32_t refusal, uint32_t place)
{
    return refused(v, op, refusal) && v->answer->place == place;
}

static int had_rw(const view *v, uint64_t model)
{
    return (int)(v->before->rw >> model & 1);
}

static uint64_t model_of(const view *v, uint32_t instance)
{
    return v->working[CHIP_INSTANCE_AT(instance)] >> 8 & 0xff;
}

/* The model of the instance that a names. */
static uint64_t its_model(const view *v)
{
    return model_of(v, v->asked->a);
}

static int read_done(const view *v)
{
    return done(v, CHIP_GET) || done(v, CHIP_TEST);
}

/* The models that this call woke. */
static uint64_t newly_woken(const view *v)
{
    return read_done(v) ? v->answer->session.ro & ~v->before->ro : 0;
}

static int was_woken(const view *v, uint32_t model)
{
    return (int)(v->memory->woken >> model & 1);
}

/* ---- numbers and cursors ---- */

static const uint32_t creations[ENTRY_KINDS] = {CHIP_CREATE_MODEL, CHIP_CREATE_SCHEMA_INSTANCE, CHIP_CREATE_INSTANCE};

static int made(const view *v)
{
    return done(v, creations[v->kind]);
}

/* The number that was tried first. */
static uint64_t tried(const view *v)
{
    return v->memory->cursors[v->kind];
}

static int is_free(const view *v, uint64_t number)
{
    const entry_kind *of = &entry_kinds[v->kind];
    return v->working[of->at + number * of->stride] == 0;
}

static int last_made(const view *v)
{
    const entry_kind *of = &entry_kinds[v->kind];
    return made(v) && v->answer->value == of->count - 1 && v->working[of->cursor] == 0;
}

static int live_passed(const view *v)
{
    return made(v) && v->answer->value > tried(v);
}

static int gone_round(const view *v)
{
    return made(v) && v->answer->value < tried(v);
}

static int gone_all_round(const view *v)
{
    return made(v) && v->answer->value + 1 == tried(v);
}

static int lower_left_free(const view *v)
{
    if (!made(v) || v->answer->value != tried(v))
        return 0;
    for (uint64_t n = 0; n < tried(v); n++)
        if (is_free(v, n))
            return 1;
    return 0;
}

static int full_with_cursor(const view *v)
{
    return refused(v, creations[v->kind], CHIP_NO_ROOM) && tried(v) != 0;
}

static int made_again_after(const view *v, uint32_t drop)
{
    return made(v) && v->answer->value == v->memory->dropped[v->kind] && v->memory->dropped_by[v->kind] == drop;
}

static int made_again_after_closing(const view *v)
{
    return made_again_after(v, CHIP_CLOSE_SESSION);
}

static int made_again_after_abort(const view *v)
{
    return made_again_after(v, CHIP_ABORT);
}

static int made_again_after_end_abort(const view *v)
{
    return made_again_after(v, CHIP_END_ABORT);
}

static int made_again_after_fault(const view *v)
{
    return made_again_after(v, CHIP_STORAGE_FAULT);
}

/* ---- sets, references, places and events ---- */

static int full_set(const view *v)
{
    return done(v, CHIP_ADD_MODEL) && v->answer->value == CHIP_MODELS;
}

static int emptied_set(const view *v)
{
    return done(v, CHIP_REMOVE_MODEL) && v->answer->value == 0;
}

/* Whether the repository of a label is open. */
static int was_open(const view *v, uint64_t label)
{
    return (int)(v->before->repositories >> (label >> 32 & 0xff) & 1);
}

static int added_model_closed(const view *v)
{
    return refused_at(v, CHIP_ADD_MODEL, CHIP_RP_NOPN, CHIP_PLACE_B) &&
           was_open(v, v->working[CHIP_SCHEMA_INSTANCE_AT(v->asked->a)]);
}

static int both_closed(const view *v)
{
    return refused_at(v, CHIP_ADD_MODEL, CHIP_RP_NOPN, CHIP_PLACE_A) && v->asked->b < CHIP_MODELS &&
           v->working[v->asked->b] && !was_open(v, v->working[v->asked->b]);
}

/* The instance that instance i refers to; CHIP_INSTANCES if it refers to none. */
static uint32_t target_of(const view *v, uint32_t i)
{
    const uint64_t *instance = v->working + CHIP_INSTANCE_AT(i);
    uint32_t reference = instance[0] ? dictionary[(instance[0] & 0xff) - 1].reference : NO_REFERENCE;
    return instance[0] >> (16 + reference) & 1 ? (uint32_t)instance[1 + reference] : CHIP_INSTANCES;
}

/* Whether instance i stays, has a model without RW access and refers to what the deletion of a would take. */
static int holds_back(const view *v, uint32_t i)
{
    uint32_t target = target_of(v, i);
    if (target == CHIP_INSTANCES || had_rw(v, model_of(v, i)))
        return 0;
    if (v->asked->op == CHIP_DELETE_INSTANCE)
        return target == v->asked->a && i != v->asked->a;
    return model_of(v, target) == v->asked->a && model_of(v, i) != v->asked->a;
}

static int is_held_back(const view *v)
{
    for (uint32_t i = 0; i < CHIP_INSTANCES; i++)
        if (holds_back(v, i))
            return 1;
    return 0;
}

static int instance_held_back(const view *v)
{
    return refused_at(v, CHIP_DELETE_INSTANCE, CHIP_MX_NRW, CHIP_PLACE_REFERENCE) && had_rw(v, its_model(v)) &&
           is_held_back(v);
}

static int last_holds_back(const view *v)
{
    return instance_held_back(v) && holds_back(v, CHIP_INSTANCES - 1);
}

static int model_held_back(const view *v)
{
    return refused_at(v, CHIP_DELETE_MODEL, CHIP_MX_NRW, CHIP_PLACE_REFERENCE) && had_rw(v, v->asked->a) &&
           is_held_back(v);
}

/* Refused for two reasons, of which the first counts. */
static int instance_without_rw_held_back(const view *v)
{
    return refused_at(v, CHIP_DELETE_INSTANCE, CHIP_MX_NRW, CHIP_PLACE_A) && is_held_back(v);
}

static int model_without_rw_held_back(const view *v)
{
    return refused_at(v, CHIP_DELETE_MODEL, CHIP_MX_NRW, CHIP_PLACE_A) && is_held_back(v);
}

static int two_types_that_are_none(const view *v)
{
    return refused_at(v, CHIP_SUBTYPE_TEST, CHIP_ED_NDEF, CHIP_PLACE_A) && v->asked->b >= CHIP_TYPES;
}

/* The event that this call added is the last. */
static int place_recorded(const view *v)
{
    const chip_session *after = &v->answer->session;
    return v->answer->place != CHIP_PLACE_NONE && v->before->recording &&
           after->events[after->count - 1].op == v->asked->op &&
           after->events[after->count - 1].refusal == v->answer->refusal &&
           after->events[after->count - 1].place == v->answer->place;
}

static int event_dropped(const view *v)
{
    return v->answer->refusal > CHIP_SY_ERR && v->before->recording && v->before->count == CHIP_EVENTS;
}

/* The one that is the oldest then had a place, and has it still. */
static int place_kept(const view *v)
{
    return event_dropped(v) && v->before->events[1].place != CHIP_PLACE_NONE &&
           v->answer->session.events[0].place == v->before->events[1].place;
}

static int refused_unrecorded(const view *v)
{
    return v->answer->refusal > CHIP_SY_ERR && v->before->opened && !v->before->recording;
}

/* ---- transactions and access ---- */

static int closed_in_rw(const view *v)
{
    return done_under(v, CHIP_CLOSE_SESSION, CHIP_RW);
}

static int closed_in_ro(const view *v)
{
    return done_under(v, CHIP_CLOSE_SESSION, CHIP_RO);
}

static int closed_in_aborted(const view *v)
{
    return done_under(v, CHIP_CLOSE_SESSION, CHIP_ABORTED);
}

static int fault_in_rw(const view *v)
{
    return done_under(v, CHIP_STORAGE_FAULT, CHIP_RW);
}

static int fault_in_ro(const view *v)
{
    return done_under(v, CHIP_STORAGE_FAULT, CHIP_RO);
}

static int abort_with_access(const view *v)
{
    return done(v, CHIP_ABORT) && v->before->ro && v->before->rw;
}

static int ended_aborted(const view *v)
{
    return done_under(v, CHIP_END_ABORT, CHIP_ABORTED);
}

static int ended_ro_by_commit(const view *v)
{
    return done_under(v, CHIP_END_COMMIT, CHIP_RO);
}

static int opened_in_aborted(const view *v)
{
    return done_under(v, CHIP_OPEN_REPOSITORY, CHIP_ABORTED);
}

static int woken_under(const view *v, uint32_t transaction)
{
    return newly_woken(v) && v->before->transaction == transaction;
}

static int woken_in_ro(const view *v)
{
    return woken_under(v, CHIP_RO);
}

static int woken_in_rw(const view *v)
{
    return woken_under(v, CHIP_RW);
}

static int woken_by_unset(const view *v)
{
    return newly_woken(v) && v->asked->op == CHIP_TEST && v->answer->value == 0;
}

static int read_with_rw(const view *v)
{
    return read_done(v) && had_rw(v, its_model(v));
}

/* Of an open repository, or it would be RP_NOPN. */
static int left_asleep(const view *v, uint32_t refusal)
{
    return refused(v, CHIP_GET, refusal) && !((v->before->ro | v->before->rw) >> its_model(v) & 1) &&
           v->answer->session.ro == v->before->ro;
}

static int left_asleep_by_unset(const view *v)
{
    return left_asleep(v, CHIP_VA_NSET);
}

static int left_asleep_by_number(const view *v)
{
    return left_asleep(v, CHIP_AT_NDEF);
}

static int woken_not_given_rw(const view *v)
{
    return refused(v, CHIP_RW_ACCESS, CHIP_MX_RO) && was_woken(v, v->asked->a);
}

static int woken_promoted(const view *v)
{
    return done(v, CHIP_PROMOTE) && was_woken(v, v->asked->a);
}

static int given_promoted(const view *v)
{
    return done(v, CHIP_PROMOTE) && !was_woken(v, v->asked->a);
}

static int woken_ended(const view *v)
{
    return done(v, CHIP_END_ACCESS) && was_woken(v, v->asked->a);
}

typedef struct sight {
    const char *name;
    int (*is_seen)(const view *v);
} sight;

/* To be seen of models, of schema instances and of instances. */
static const sight sights_of_numbers[] = {
    {"the last number is given, and the cursor is 0", last_made},
    {"the cursor's number is live, and a higher one is given", live_passed},
    {"none is free from the cursor on, and a lower number is given", gone_round},
    {"none is free but the number before the cursor", gone_all_round},
    {"the cursor's number is given, though a lower one is free", lower_left_free},
    {"NO_ROOM, and the cursor is not 0", full_with_cursor},
    {"a number is given again after the session was closed in RW", made_again_after_closing},
    {"a number is given again after an abort", made_again_after_abort},
    {"a number is given again after end, abort", made_again_after_end_abort},
    {"a number is given again after a fault", made_again_after_fault},
};

static const sight sights[] = {
    {"a set of 64 models", full_set},
    {"a set loses its last model", emptied_set},
    {"add model: its repository is closed, the schema instance's is open; place 2", added_model_closed},
    {"add model: both repositories are closed; place 1", both_closed},
    {"a referrer without RW access holds back an instance; place 7", instance_held_back},
    {"instance 127 is such a referrer", last_holds_back},
    {"a referrer without RW access holds back a model; place 7", model_held_back},
    {"an instance that is held back, its model without RW access; place 1", instance_without_rw_held_back},
    {"a model that is held back, without RW access; place 1", model_without_rw_held_back},
    {"subtype test of two types that are none; place 1", two_types_that_are_none},
    {"a place is recorded", place_recorded},
    {"the oldest of sixteen events drops out", event_dropped},
    {"the oldest drops out, and the next keeps its place", place_kept},
    {"a refusal while recording is off", refused_unrecorded},
    {"session closed in RW", closed_in_rw},
    {"session closed in RO", closed_in_ro},
    {"session closed in an aborted transaction", closed_in_aborted},
    {"fault in RW", fault_in_rw},
    {"fault in RO", fault_in_ro},
    {"abort with RO and RW access", abort_with_access},
    {"end, abort of an aborted transaction", ended_aborted},
    {"end, commit of RO", ended_ro_by_commit},
    {"repository opened in an aborted transaction", opened_in_aborted},
    {"a read wakes a model in RO", woken_in_ro},
    {"a read wakes a model in RW", woken_in_rw},
    {"a test of an attribute that is not set wakes a model", woken_by_unset},
    {"a read of a model with RW access", read_with_rw},
    {"a get of an attribute that is not set wakes nothing", left_asleep_by_unset},
    {"a get of an attribute that is not there wakes nothing", left_asleep_by_number},
    {"RW access of a woken model is MX_RO", woken_not_given_rw},
    {"a woken model is promoted", woken_promoted},
    {"a model with the access of 22 is promoted", given_promoted},
    {"access of a woken model ends", woken_ended},
};

#define COUNT(list) ((int)(sizeof list / sizeof *list))
#define SIGHTS COUNT(sights)
#define SIGHTS_OF_NUMBERS COUNT(sights_of_numbers)

static int seen[SIGHTS];
static int seen_of[ENTRY_KINDS][SIGHTS_OF_NUMBERS];
static memory remembered;

void begin_walk(void)
{
    remembered.woken = 0;
    for (int k = 0; k < ENTRY_KINDS; k++)
        remembered.pending[k] = remembered.dropped[k] = NO_NUMBER;
}

static void remember_numbers(const view *v)
{
    uint32_t *pending = &remembered.pending[v->kind], *dropped = &remembered.dropped[v->kind];
    if (made(v)) {
        *dropped = NO_NUMBER;
        if (*pending == NO_NUMBER)
            *pending = v->answer->value;
    }
    if (drops(v) && *pending != NO_NUMBER) {
        *dropped = *pending;
        remembered.dropped_by[v->kind] = v->asked->op;
    }
    if (drops(v) || commits(v))
        *pending = NO_NUMBER;
}

void look(const chip_session *session, const uint64_t *working)
{
    remembered.before = *session;
    for (int k = 0; k < ENTRY_KINDS; k++)
        remembered.cursors[k] = working[entry_kinds[k].cursor];
}

void see(const call *asked, const chip_answer *answer, const uint64_t *working)
{
    view v = {asked, &remembered.before, answer, working, &remembered, 0};
    for (int n = 0; n < SIGHTS; n++)
        seen[n] = seen[n] || sights[n].is_seen(&v);
    remembered.woken = (remembered.woken | newly_woken(&v)) & answer->session.ro;
    for (v.kind = 0; v.kind < ENTRY_KINDS; v.kind++) {
        int *of_kind = seen_of[v.kind];
        for (int n = 0; n < SIGHTS_OF_NUMBERS; n++)
            of_kind[n] = of_kind[n] || sights_of_numbers[n].is_seen(&v);
        remember_numbers(&v);
    }
}

int print_sights(int names)
{
    static const char *const kind_names[ENTRY_KINDS] = {"models", "schema instances", "instances"};
    int all = SIGHTS + ENTRY_KINDS * SIGHTS_OF_NUMBERS, missing = 0;
    for (int n = 0; n < SIGHTS; n++)
        missing += !seen[n];
    for (int k = 0; k < ENTRY_KINDS; k++)
        for (int n = 0; n < SIGHTS_OF_NUMBERS; n++)
            missing += !seen_of[k][n];
    printf("sights of the walks: %d of %d seen\n", all - missing, all);
    for (int n = 0; names && n < SIGHTS; n++)
        if (!seen[n])
            printf("  not seen: %s\n", sights[n].name);
    for (int k = 0; names && k < ENTRY_KINDS; k++)
        for (int n = 0; n < SIGHTS_OF_NUMBERS; n++)
            if (!seen_of[k][n])
                printf("  not seen: %s: %s\n", kind_names[k], sights_of_numbers[n].name);
    return missing;
}
