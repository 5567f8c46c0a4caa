#include "walk.h"

#include "../model/dictionary.h"
#include "../model/entry_kinds.h"

#define LAST_OP CHIP_SUBTYPE_TEST
#define ALL UINT64_MAX

/* Where a walk is. */
typedef struct position {
    dice *dice;
    const walk *walk;
    const chip_session *session;
    const uint64_t *working;
} position;

/* ---- numbers ---- */

typedef int choice(const position *at, uint32_t number, uint64_t by);

/* The first number that suits at or after a random one, going round; the random one if none does. */
static uint32_t going_round(const position *at, uint32_t count, choice *suits, uint64_t by)
{
    uint32_t start = one_in(at->dice, 2) ? any_entry(at->dice, count) : below(at->dice, count);
    for (uint32_t n = 0; n < count; n++)
        if (suits(at, (start + n) % count, by))
            return (start + n) % count;
    return start;
}

/* Mostly `usual`, at times any entry or an edge. */
static uint32_t mostly(const position *at, uint32_t usual, uint32_t count)
{
    uint32_t chance = below(at->dice, 100);
    return chance < 3 ? edge(at->dice) : chance < 8 ? below(at->dice, count) : usual;
}

static uint32_t any_repository(const position *at)
{
    return mostly(at, below(at->dice, CHIP_REPOSITORIES), CHIP_REPOSITORIES);
}

static uint64_t instance_header(const position *at, uint32_t number)
{
    return at->working[CHIP_INSTANCE_AT(number)];
}

static const entity_type *type_of_instance(const position *at, uint32_t number)
{
    return &dictionary[(instance_header(at, number) & 0xff) - 1];
}

static int is_live_model(const position *at, uint32_t number, uint64_t wanted)
{
    return at->working[number] != 0 && wanted >> number & 1;
}

static int is_live_schema_instance(const position *at, uint32_t number, uint64_t unused)
{
    (void)unused;
    return at->working[CHIP_SCHEMA_INSTANCE_AT(number)] != 0;
}

static int is_instance_in(const position *at, uint32_t number, uint64_t models)
{
    uint64_t header = instance_header(at, number);
    return header != 0 && models >> (header >> 8 & 0xff) & 1;
}

/* The number that a live instance refers to; meaningless if its reference is not set. */
static uint32_t target_of(const position *at, uint32_t number)
{
    return (uint32_t)at->working[CHIP_INSTANCE_AT(number) + 1 + type_of_instance(at, number)->reference];
}

/* Refers out of a model that is not in `rw` into one that is. */
static int holds_back(const position *at, uint32_t number, uint64_t rw)
{
    return is_instance_in(at, number, ~rw) &&
           instance_header(at, number) >> (16 + type_of_instance(at, number)->reference) & 1 &&
           is_instance_in(at, target_of(at, number), rw);
}

static int is_target_of(const position *at, uint32_t number, uint64_t referrer)
{
    uint32_t wanted = type_of_instance(at, (uint32_t)referrer)->target;
    return instance_header(at, number) != 0 && type_of_instance(at, number)->above >> wanted & 1;
}

static uint64_t model_bit_of(const position *at, uint32_t number)
{
    return (uint64_t)1 << (instance_header(at, number) >> 8 & 0xff);
}

static int is_target_within_reach(const position *at, uint32_t number, uint64_t referrer)
{
    if (!is_target_of(at, number, referrer))
        return 0;
    uint64_t both = model_bit_of(at, number) | model_bit_of(at, (uint32_t)referrer);
    for (uint32_t s = 0; s < CHIP_SCHEMA_INSTANCES; s++)
        if ((at->working[CHIP_SCHEMA_INSTANCE_AT(s) + 1] & both) == both)
            return 1;
    return both == model_bit_of(at, number);
}

/* Out of `wanted`, but at times out of all. */
static uint32_t some_model(const position *at, uint64_t wanted)
{
    if (one_in(at->dice, 8))
        wanted = ALL;
    return mostly(at, going_round(at, CHIP_MODELS, is_live_model, wanted), CHIP_MODELS);
}

/* Of a model out of `wanted`, but at times of any. */
static uint32_t some_instance(const position *at, uint64_t wanted)
{
    if (one_in(at->dice, 8))
        wanted = ALL;
    return mostly(at, going_round(at, CHIP_INSTANCES, is_instance_in, wanted), CHIP_INSTANCES);
}

/* Instance 127 if it is one, or any. */
static uint32_t some_that_holds_back(const position *at)
{
    const uint32_t last = CHIP_INSTANCES - 1;
    if (holds_back(at, last, at->session->rw) && one_in(at->dice, 2))
        return last;
    return going_round(at, CHIP_INSTANCES, holds_back, at->session->rw);
}

/* The last that was made, if its creation was not dropped. */
static uint32_t before_cursor(const position *at, const entry_kind *of)
{
    return ((uint32_t)at->working[of->cursor] + of->count - 1) % of->count;
}

/* At times the last that was made, at times one that is held back. */
static uint32_t instance_to_delete(const position *at)
{
    uint64_t rw = at->session->rw;
    uint32_t referrer = some_that_holds_back(at);
    if (one_in(at->dice, 8))
        return before_cursor(at, &entry_kinds[INSTANCES]);
    if (one_in(at->dice, 2) || !holds_back(at, referrer, rw))
        return some_instance(at, rw);
    return target_of(at, referrer);
}

/* At times the last that was made, at times one with an instance that is held back. */
static uint32_t model_to_delete(const position *at)
{
    uint64_t rw = at->session->rw;
    uint32_t referrer = some_that_holds_back(at);
    if (one_in(at->dice, 8))
        return before_cursor(at, &entry_kinds[MODELS]);
    if (one_in(at->dice, 2) || !holds_back(at, referrer, rw))
        return some_model(at, rw);
    return (uint32_t)(instance_header(at, target_of(at, referrer)) >> 8 & 0xff);
}

static uint32_t some_schema_instance(const position *at)
{
    uint32_t usual = at->walk->favourite;
    if (at->walk->phase != GATHER || one_in(at->dice, 8))
        usual = going_round(at, CHIP_SCHEMA_INSTANCES, is_live_schema_instance, ALL);
    return mostly(at, usual, CHIP_SCHEMA_INSTANCES);
}

static uint32_t some_schema(const position *at)
{
    if (one_in(at->dice, 40))
        return edge(at->dice);
    return at->walk->schema ? at->walk->schema : 1 + below(at->dice, 2);
}

static uint32_t some_name(const position *at)
{
    return one_in(at->dice, 10) ? edge(at->dice) : below(at->dice, at->walk->names);
}

static uint32_t type_for(const position *at, uint32_t model)
{
    if (one_in(at->dice, 12))
        return one_in(at->dice, 3) ? edge(at->dice) : below(at->dice, CHIP_TYPES + 2);
    return model < CHIP_MODELS && at->working[model] >> 40 == 2 ? 8 + below(at->dice, 2) : below(at->dice, 8);
}

static uint32_t some_type(const position *at)
{
    return mostly(at, below(at->dice, CHIP_TYPES), CHIP_TYPES + 2);
}

/* One that the instance has, its reference more often than the others. */
static uint32_t attribute_of(const position *at, uint32_t number)
{
    uint32_t usual = below(at->dice, CHIP_ATTRIBUTES);
    if (number < CHIP_INSTANCES && instance_header(at, number) != 0) {
        const entity_type *type = type_of_instance(at, number);
        usual = one_in(at->dice, 2) && type->reference != NO_REFERENCE ? type->reference : usual % type->attributes;
    }
    return mostly(at, usual, CHIP_ATTRIBUTES + 1);
}

/* For a reference mostly one that can be put, for a number anything. */
static uint32_t value_for(const position *at, uint32_t number, uint32_t attribute)
{
    if (number < CHIP_INSTANCES && instance_header(at, number) != 0 &&
        type_of_instance(at, number)->reference == attribute && !one_in(at->dice, 6))
        return going_round(at, CHIP_INSTANCES, one_in(at->dice, 4) ? is_target_of : is_target_within_reach, number);
    switch (below(at->dice, 4)) {
    case 0: return edge(at->dice);
    case 1: return below(at->dice, 2 * CHIP_INSTANCES);
    case 2: return (uint32_t)roll(at->dice);
    default: return going_round(at, CHIP_INSTANCES, is_instance_in, ALL);
    }
}

static uint32_t anything(const position *at)
{
    return one_in(at->dice, 2) ? edge(at->dice) : (uint32_t)roll(at->dice);
}

/* ---- operations ---- */

/* An operation number that is near a listed one, or like one in its low bits, or any. */
static uint32_t odd_operation(dice *d)
{
    static const uint8_t unlisted[] = {0, 14, 19, 26, 29, 34, 39, 47, 48, 63, 64, 255};
    uint32_t listed = 1 + below(d, LAST_OP);
    switch (below(d, 4)) {
    case 0: return listed + (uint32_t)one_bit(d, 6, 31);
    case 1: return below(d, 70);
    case 2: return (uint32_t)roll(d);
    default: return unlisted[below(d, sizeof unlisted)];
    }
}

/* How often a phase draws each operation; 0 stands for an odd one. */
static const uint8_t weights[PHASES][LAST_OP + 1] = {
    [FILL] = {[0] = 1, [3] = 2, [7] = 2, [20] = 40, [22] = 4, [23] = 12, [25] = 4, [30] = 9, [32] = 40, [40] = 50,
              [41] = 6, [42] = 3, [44] = 90, [46] = 1},
    [GATHER] = {[0] = 1, [3] = 2, [7] = 2, [20] = 40, [23] = 10, [30] = 6, [32] = 100, [33] = 2, [40] = 10, [44] = 30},
    [MIX] = {[0] = 4, [1] = 1, [2] = 1, [3] = 2, [4] = 4, [5] = 3, [6] = 3, [7] = 6, [8] = 2, [9] = 3, [10] = 2,
             [11] = 3, [12] = 2, [13] = 2, [20] = 12, [21] = 8, [22] = 26, [23] = 40, [24] = 10, [25] = 12, [30] = 6,
             [31] = 3, [32] = 24, [33] = 6, [40] = 40, [41] = 30, [42] = 30, [43] = 16, [44] = 90, [45] = 8, [46] = 6},
    [DRAIN] = {[0] = 2, [2] = 1, [4] = 8, [6] = 3, [7] = 6, [8] = 2, [9] = 4, [10] = 3, [12] = 1, [13] = 2, [21] = 20,
               [22] = 20, [23] = 40, [24] = 10, [25] = 10, [31] = 4, [33] = 16, [41] = 50, [42] = 8, [43] = 4,
               [44] = 30, [45] = 16},
    [LOOSE] = {[0] = 6, [1] = 1, [2] = 1, [3] = 2, [4] = 2, [5] = 2, [6] = 2, [7] = 2, [8] = 2, [9] = 2, [10] = 2,
               [11] = 2, [12] = 2, [13] = 2, [20] = 2, [21] = 2, [22] = 2, [23] = 2, [24] = 2, [25] = 2, [30] = 2,
               [31] = 2, [32] = 2, [33] = 2, [40] = 2, [41] = 2, [42] = 2, [43] = 2, [44] = 2, [45] = 2, [46] = 2},
};

static uint32_t drawn(dice *d, const uint8_t *weight)
{
    uint32_t total = 0;
    for (uint32_t op = 0; op <= LAST_OP; op++)
        total += weight[op];
    uint32_t left = below(d, total);
    uint32_t op = 0;
    while (left >= weight[op])
        left -= weight[op++];
    return op ? op : odd_operation(d);
}

/* In percent: how often a phase first does what most operations wait for. */
static const uint8_t eagerness[PHASES] = {[FILL] = 80, [GATHER] = 80, [MIX] = 50, [DRAIN] = 50, [LOOSE] = 15};

/* The operation that most others wait for; 0 if they wait for none. */
static uint32_t awaited(const position *at)
{
    const chip_session *session = at->session;
    if (!session->opened)
        return CHIP_OPEN_SESSION;
    if (session->transaction == CHIP_ABORTED)
        return CHIP_END_ABORT;
    if (at->walk->repositories & ~session->repositories)
        return CHIP_OPEN_REPOSITORY;
    if (session->transaction == CHIP_RO)
        return one_in(at->dice, 10) ? CHIP_END_COMMIT : 0;
    if (session->transaction == CHIP_NONE)
        return one_in(at->dice, 8) ? CHIP_START_RO : CHIP_START_RW;
    return session->rw ? 0 : CHIP_RW_ACCESS;
}

static uint64_t set_of(const position *at, uint32_t schema_instance)
{
    return schema_instance < CHIP_SCHEMA_INSTANCES ? at->working[CHIP_SCHEMA_INSTANCE_AT(schema_instance) + 1] : 0;
}

/* Arguments that the operation does not name are anything. */
static call with_arguments(const position *at, uint32_t op)
{
    const chip_session *session = at->session;
    uint64_t access = session->ro | session->rw;
    call next = {.op = op};
    next.a = anything(at);
    next.b = anything(at);
    next.c = anything(at);
    switch (op) {
    case CHIP_OPEN_REPOSITORY:
    case CHIP_CLOSE_REPOSITORY:
        next.a = any_repository(at);
        break;
    case CHIP_CREATE_MODEL:
    case CHIP_CREATE_SCHEMA_INSTANCE:
        next.a = any_repository(at);
        next.b = some_schema(at);
        next.c = some_name(at);
        break;
    case CHIP_RO_ACCESS:
    case CHIP_RW_ACCESS:
        next.a = some_model(at, ~access);
        break;
    case CHIP_DELETE_MODEL:
        next.a = model_to_delete(at);
        break;
    case CHIP_END_ACCESS:
        next.a = some_model(at, access);
        break;
    case CHIP_PROMOTE:
        next.a = some_model(at, session->ro);
        break;
    case CHIP_DELETE_SCHEMA_INSTANCE:
        next.a = one_in(at->dice, 8) ? before_cursor(at, &entry_kinds[SCHEMA_INSTANCES]) : some_schema_instance(at);
        break;
    case CHIP_ADD_MODEL:
        next.a = some_schema_instance(at);
        next.b = some_model(at, ~set_of(at, next.a));
        break;
    case CHIP_REMOVE_MODEL:
        next.a = some_schema_instance(at);
        next.b = some_model(at, set_of(at, next.a));
        break;
    case CHIP_CREATE_INSTANCE:
        next.a = some_model(at, session->rw);
        next.b = type_for(at, next.a);
        break;
    case CHIP_DELETE_INSTANCE:
        next.a = instance_to_delete(at);
        break;
    case CHIP_GET:
    case CHIP_TEST:
        next.a = some_instance(at, one_in(at->dice, 3) ? ~access : access);
        next.b = attribute_of(at, next.a);
        break;
    case CHIP_PUT:
    case CHIP_UNSET:
        next.a = some_instance(at, session->rw);
        next.b = attribute_of(at, next.a);
        next.c = value_for(at, next.a, next.b);
        break;
    case CHIP_SUBTYPE_TEST:
        next.a = some_type(at);
        next.b = one_in(at->dice, 8) ? next.a : some_type(at);
        break;
    default:
        break;
    }
    return next;
}

/* ---- the walk ---- */

walk walk_from(dice *d)
{
    walk w = {.dice = d};
    w.left = 1 + below(d, 900);
    w.names = 8 + below(d, 40);
    w.phase = one_in(d, 6) ? LOOSE : one_in(d, 4) ? GATHER : FILL;
    w.schema = one_in(d, 3) ? 1 + below(d, 2) : 0;
    w.favourite = any_entry(d, CHIP_SCHEMA_INSTANCES);
    w.repositories = one_in(d, 3) ? below(d, 256) : 255;
    w.calm = !one_in(d, 3);
    return w;
}

/* MIX and DRAIN more often than the others. */
static void next_phase(walk *w)
{
    static const uint8_t phases[] = {FILL, GATHER, MIX, MIX, MIX, DRAIN, DRAIN, LOOSE};
    w->phase = (enum phase)phases[below(w->dice, sizeof phases)];
    w->left = 20 + below(w->dice, 600);
    w->repositories = one_in(w->dice, 2) ? below(w->dice, 256) : 255;
}

static int undoes(uint32_t op)
{
    return op == CHIP_CLOSE_SESSION || op == CHIP_ABORT || op == CHIP_END_ABORT || op == CHIP_STORAGE_FAULT ||
           op == CHIP_DELETE_MODEL;
}

call walk_next(walk *w, const chip_session *session, const uint64_t *working)
{
    if (w->left-- == 0)
        next_phase(w);
    position at = {w->dice, w, session, working};
    uint32_t op = percent(w->dice, eagerness[w->phase]) ? awaited(&at) : 0;
    if (op == 0)
        op = drawn(w->dice, weights[w->phase]);
    if (w->calm && undoes(op) && session->transaction == CHIP_RW && !one_in(w->dice, 12))
        op = CHIP_PUT;
    return with_arguments(&at, op);
}

call walk_aside(walk *w, const chip_session *session, const uint64_t *working)
{
    position at = {w->dice, w, session, working};
    return with_arguments(&at, drawn(w->dice, weights[LOOSE]));
}
