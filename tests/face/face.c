/* What include/chip.h adds to the call: names for numbers and cursors, a chip in one struct; tables that are too short or not
 * there; and trays, with rows that are too short, too long or not there. */
#include "chip.h"

#include <stdio.h>
#include <string.h>

static int failures;

static void expect(int holds, const char *what)
{
    if (!holds) {
        printf("face: not so: %s\n", what);
        failures++;
    }
}

/* ---- names ---- */

static void edition_has_numbers(void)
{
    expect(CHIP_EDITION == 5 && CHIP_VERSION_NUMBER == 600 && strcmp(CHIP_VERSION, "0.6.0") == 0, "the edition");
}

#define NAMED(name) expect(strcmp(chip_refusal_name(CHIP_##name), #name) == 0, "the name of " #name)

static void refusals_have_names(void)
{
    NAMED(SY_ERR), NAMED(FN_NAVL), NAMED(SS_OPN), NAMED(SS_NOPN), NAMED(TR_EAB), NAMED(TR_EXS), NAMED(TR_NEXS);
    NAMED(TR_NAVL), NAMED(TR_NRW), NAMED(RP_NEXS), NAMED(RP_OPN), NAMED(RP_NOPN), NAMED(MO_NEXS), NAMED(MO_DUP);
    NAMED(MO_NDEQ), NAMED(MO_NVLD), NAMED(MX_RO), NAMED(MX_RW), NAMED(MX_NDEF), NAMED(MX_NRW), NAMED(SD_NDEF);
    NAMED(SI_NEXS), NAMED(SI_DUP), NAMED(ED_NDEF), NAMED(ED_NDEQ), NAMED(ED_NVLD), NAMED(EI_NEXS), NAMED(AT_NDEF);
    NAMED(VA_NSET), NAMED(VA_NVLD), NAMED(VT_NVLD), NAMED(NO_ROOM);
    expect(strcmp(chip_refusal_name(CHIP_DONE), "done") == 0, "the name of done");
    expect(strcmp(chip_refusal_name(CHIP_NO_ROOM + 1), "unknown refusal") == 0, "33 is no refusal");
    expect(strcmp(chip_refusal_name(UINT32_MAX), "unknown refusal") == 0, "2^32 - 1 is no refusal");
}

static void places_have_names(void)
{
    static const char *const names[] = {"none", "argument a", "argument b", "argument c", "models", "schema instances",
                                        "instances", "remaining reference"};
    uint32_t place;
    for (place = CHIP_PLACE_NONE; place <= CHIP_PLACE_REFERENCE; place++)
        expect(strcmp(chip_place_name(place), names[place]) == 0, "the names of the places");
    expect(strcmp(chip_place_name(CHIP_PLACE_REFERENCE + 1), "unknown place") == 0, "8 is no place");
    expect(strcmp(chip_place_name(UINT32_MAX), "unknown place") == 0, "2^32 - 1 is no place");
}

/* An operation has a name exactly if the library lists its number. */
static void listed_operations_have_names(void)
{
    chip on;
    uint32_t op;
    for (op = 0; op < 70000; op++) {
        int unknown = strcmp(chip_operation_name(op), "unknown operation") == 0;
        chip_fresh(&on);
        expect(unknown == (chip_do(&on, op, 0, 0, 0).refusal == CHIP_FN_NAVL), "names of the listed operations");
    }
    expect(strcmp(chip_operation_name(UINT32_MAX), "unknown operation") == 0, "2^32 - 1 is no operation");
}

/* ---- a chip ---- */

static int all_zero(const void *at, size_t count)
{
    const unsigned char *bytes = (const unsigned char *)at;
    size_t n;
    for (n = 0; n < count; n++)
        if (bytes[n] != 0)
            return 0;
    return 1;
}

static void chips_begin_and_begin_again(void)
{
    static chip on;
    memset(&on, 0xa5, sizeof on);
    chip_fresh(&on);
    expect(all_zero(&on, sizeof on), "a fresh chip is zeros");
    chip_do(&on, CHIP_OPEN_SESSION, 0, 0, 0);
    chip_do(&on, CHIP_OPEN_REPOSITORY, 0, 0, 0);
    chip_do(&on, CHIP_START_RW, 0, 0, 0);
    chip_do(&on, CHIP_CREATE_MODEL, 0, 1, 7);
    chip_do(&on, CHIP_COMMIT, 0, 0, 0);
    expect(chip_do(&on, CHIP_CREATE_MODEL, 0, 1, 8).value == 1, "a second model");
    chip_restart(&on);
    expect(all_zero(&on.session, sizeof on.session), "after a restart the session is closed");
    expect(on.working[0] == 1099511627783 && on.working[1] == 0, "after a restart there is what was committed");
    expect(chip_do(&on, CHIP_OPEN_SESSION, 0, 0, 0).refusal == CHIP_DONE, "after a restart the chip is sound");
}

/* An answer's place comes with the result, and stands in the event. */
static void places_are_told(void)
{
    static chip on;
    chip_result result;
    chip_fresh(&on);
    result = chip_do(&on, CHIP_OPEN_SESSION, 0, 0, 0);
    expect(result.refusal == CHIP_DONE && result.place == CHIP_PLACE_NONE, "done has no place");
    result = chip_do(&on, CHIP_SUBTYPE_TEST, 0, CHIP_TYPES, 0);
    expect(result.refusal == CHIP_ED_NDEF && result.place == CHIP_PLACE_B, "the second type is none");
    expect(on.session.count == 1 && on.session.events[0].op == CHIP_SUBTYPE_TEST &&
               on.session.events[0].refusal == CHIP_ED_NDEF && on.session.events[0].place == CHIP_PLACE_B,
           "the event has refusal and place");
}

/* ---- tables ---- */

static uint32_t opened_with(uint64_t *working, size_t working_words, uint64_t *kept, size_t kept_words)
{
    chip on;
    chip_fresh(&on);
    return chip_call(CHIP_OPEN_SESSION, 0, 0, 0, on.session, working, working_words, kept, kept_words).refusal;
}

static void short_tables_are_refused(void)
{
    static uint64_t working[CHIP_WORDS], kept[CHIP_WORDS];
    expect(opened_with(NULL, 0, NULL, 0) == CHIP_SY_ERR, "no tables");
    expect(opened_with(working, CHIP_WORDS, NULL, 0) == CHIP_SY_ERR, "no kept table");
    expect(opened_with(NULL, 0, kept, CHIP_WORDS) == CHIP_SY_ERR, "no working table");
    expect(opened_with(working, CHIP_WORDS - 1, kept, CHIP_WORDS) == CHIP_SY_ERR, "a working table of 738 words");
    expect(opened_with(working, CHIP_WORDS, kept, CHIP_WORDS - 1) == CHIP_SY_ERR, "a kept table of 738 words");
    expect(opened_with(working, CHIP_WORDS, kept, CHIP_WORDS) == CHIP_DONE, "tables of 739 words");
}

/* ---- cursors ---- */

/* Whether they are so in the working table. */
static int cursors_are(const chip *on, uint64_t model, uint64_t schema_instance, uint64_t instance)
{
    return on->working[CHIP_MODEL_CURSOR] == model && on->working[CHIP_SCHEMA_INSTANCE_CURSOR] == schema_instance &&
           on->working[CHIP_INSTANCE_CURSOR] == instance;
}

static void cursors_have_names(void)
{
    static chip on;
    chip_fresh(&on);
    chip_do(&on, CHIP_OPEN_SESSION, 0, 0, 0);
    chip_do(&on, CHIP_OPEN_REPOSITORY, 0, 0, 0);
    chip_do(&on, CHIP_START_RW, 0, 0, 0);
    chip_do(&on, CHIP_CREATE_MODEL, 0, 1, 7);
    expect(cursors_are(&on, 1, 0, 0), "a model moves the first cursor");
    chip_do(&on, CHIP_CREATE_SCHEMA_INSTANCE, 0, 1, 7);
    expect(cursors_are(&on, 1, 1, 0), "a schema instance moves the second cursor");
    chip_do(&on, CHIP_RW_ACCESS, 0, 0, 0);
    chip_do(&on, CHIP_CREATE_INSTANCE, 0, CHIP_PLATE, 0);
    expect(cursors_are(&on, 1, 1, 1), "an instance moves the third cursor");
    chip_do(&on, CHIP_COMMIT, 0, 0, 0);
    chip_do(&on, CHIP_CREATE_INSTANCE, 0, CHIP_PLATE, 0);
    chip_restart(&on);
    expect(cursors_are(&on, 1, 1, 1), "after a restart the cursors are those that were committed");
}

/* In both tables; else they would be refused since they differ. */
static uint32_t opened_with_cursor(uint32_t cursor, uint64_t number)
{
    static uint64_t working[CHIP_WORDS], kept[CHIP_WORDS];
    uint32_t refusal;
    working[cursor] = kept[cursor] = number;
    refusal = opened_with(working, CHIP_WORDS, kept, CHIP_WORDS);
    working[cursor] = kept[cursor] = 0;
    return refusal;
}

static void cursors_have_bounds(void)
{
    expect(opened_with_cursor(CHIP_MODEL_CURSOR, CHIP_MODELS - 1) == CHIP_DONE, "a model cursor of 63");
    expect(opened_with_cursor(CHIP_MODEL_CURSOR, CHIP_MODELS) == CHIP_SY_ERR, "a model cursor of 64");
    expect(opened_with_cursor(CHIP_SCHEMA_INSTANCE_CURSOR, CHIP_SCHEMA_INSTANCES - 1) == CHIP_DONE,
           "a schema instance cursor of 15");
    expect(opened_with_cursor(CHIP_SCHEMA_INSTANCE_CURSOR, CHIP_SCHEMA_INSTANCES) == CHIP_SY_ERR,
           "a schema instance cursor of 16");
    expect(opened_with_cursor(CHIP_INSTANCE_CURSOR, CHIP_INSTANCES - 1) == CHIP_DONE, "an instance cursor of 127");
    expect(opened_with_cursor(CHIP_INSTANCE_CURSOR, CHIP_INSTANCES) == CHIP_SY_ERR, "an instance cursor of 128");
}

/* ---- trays ---- */

static void orders_and_results_have_sizes(void)
{
    expect(sizeof(chip_order) == 16 && sizeof(chip_result) == 8, "sizes of an order and a result");
    expect(offsetof(chip_result, refusal) == offsetof(chip_answer, refusal) &&
               offsetof(chip_result, place) == offsetof(chip_answer, place) &&
               offsetof(chip_result, value) == offsetof(chip_answer, value),
           "a result is what an answer begins with");
}

/* A plate is made, measured and kept. Three orders are refused: before the transaction, for an attribute, for a number that
 * is not listed. */
static const chip_order orders[] = {{CHIP_OPEN_SESSION, 0, 0, 0},
                                    {CHIP_OPEN_REPOSITORY, 0, 0, 0},
                                    {CHIP_CREATE_MODEL, 0, 1, 7},
                                    {CHIP_START_RW, 0, 0, 0},
                                    {CHIP_CREATE_MODEL, 0, 1, 7},
                                    {CHIP_RW_ACCESS, 0, 0, 0},
                                    {CHIP_CREATE_INSTANCE, 0, CHIP_PLATE, 0},
                                    {CHIP_PUT, 0, CHIP_PLATE_THICKNESS + 1, 25},
                                    {CHIP_PUT, 0, CHIP_PLATE_THICKNESS, 25},
                                    {CHIP_GET, 0, CHIP_PLATE_THICKNESS, 0},
                                    {CHIP_END_COMMIT, 0, 0, 0},
                                    {UINT32_MAX, 0, 0, 0}};
#define ORDERS (sizeof orders / sizeof *orders)

/* Some places more than there are orders. */
static chip_result answers[ORDERS + 3];

static int says(chip_result result, uint32_t refusal, uint32_t place, uint32_t value)
{
    return result.refusal == refusal && result.place == place && result.value == value;
}

/* Whether it says this, with place 0 and value 0. */
static int says_just(chip_result result, uint32_t refusal)
{
    return says(result, refusal, CHIP_PLACE_NONE, 0);
}

static void mark_answers(void)
{
    memset(answers, 0xa5, sizeof answers);
}

/* Whether the marks are there from this answer on. */
static int marked_from(size_t first)
{
    const unsigned char *bytes = (const unsigned char *)(answers + first);
    size_t n;
    for (n = 0; n < sizeof answers - first * sizeof *answers; n++)
        if (bytes[n] != 0xa5)
            return 0;
    return 1;
}

static int same_session(const chip_session *x, const chip_session *y)
{
    size_t n;
    for (n = 0; n < CHIP_EVENTS; n++)
        if (x->events[n].op != y->events[n].op || x->events[n].refusal != y->events[n].refusal ||
            x->events[n].place != y->events[n].place)
            return 0;
    return x->count == y->count && x->repositories == y->repositories && x->ro == y->ro && x->rw == y->rw &&
           x->opened == y->opened && x->recording == y->recording && x->transaction == y->transaction;
}

static int same_chip(const chip *x, const chip *y)
{
    return same_session(&x->session, &y->session) && memcmp(x->working, y->working, sizeof x->working) == 0 &&
           memcmp(x->kept, y->kept, sizeof x->kept) == 0;
}

/* All orders in two trays, wherever the row is cut, the empty ones included: so the second goes on from the session that the
 * first left. */
static void trays_answer_as_calls(void)
{
    static chip one, other;
    size_t cut, n;
    for (cut = 0; cut <= ORDERS; cut++) {
        chip_fresh(&one);
        chip_fresh(&other);
        mark_answers();
        expect(says_just(chip_do_tray(&one, orders, cut, answers, cut), CHIP_DONE), "the first tray is done");
        expect(marked_from(cut), "the first tray leaves the other answers");
        expect(says_just(chip_do_tray(&one, orders + cut, ORDERS - cut, answers + cut, ORDERS - cut), CHIP_DONE),
               "the second tray is done");
        for (n = 0; n < ORDERS; n++) {
            chip_result result = chip_do(&other, orders[n].op, orders[n].a, orders[n].b, orders[n].c);
            expect(says(answers[n], result.refusal, result.place, result.value), "an order is answered as by a call");
        }
        expect(same_chip(&one, &other), "session and tables are as after the calls");
    }
    expect(says_just(answers[2], CHIP_TR_NAVL) && says(answers[7], CHIP_AT_NDEF, CHIP_PLACE_B, 0) &&
               says(answers[9], CHIP_DONE, CHIP_PLACE_NONE, 25) && says_just(answers[11], CHIP_FN_NAVL),
           "refusals stop nothing");
    expect(one.session.count == 3 && one.kept[CHIP_INSTANCE_AT(0) + 1 + CHIP_PLATE_THICKNESS] == 25,
           "each refusal is an event, and the plate is kept");
}

static void short_rows_are_refused(void)
{
    static chip on, before;
    size_t places;
    chip_fresh(&on);
    chip_do(&on, CHIP_OPEN_SESSION, 0, 0, 0);
    chip_do(&on, CHIP_COMMIT, 0, 0, 0);
    before = on;
    for (places = 0; places < ORDERS; places++) {
        mark_answers();
        expect(says_just(chip_do_tray(&on, orders, ORDERS, answers, places), CHIP_SY_ERR), "a row that is too short");
        expect(marked_from(0) && same_chip(&on, &before), "a row that is too short leaves all as it was");
    }
    expect(says_just(chip_do_tray(&on, orders, 1, NULL, 0), CHIP_SY_ERR) && same_chip(&on, &before),
           "no row for an answer");
}

static void long_rows_keep_their_rest(void)
{
    static chip on;
    chip_fresh(&on);
    mark_answers();
    expect(says_just(chip_do_tray(&on, orders, ORDERS, answers, ORDERS + 3), CHIP_DONE), "a row with room");
    expect(says_just(answers[ORDERS - 1], CHIP_FN_NAVL) && marked_from(ORDERS), "what is behind the answers stays");
}

/* Nothing is asked for, and of the state nothing is asked. */
static void empty_trays_are_done(void)
{
    static chip on, before;
    int sound;
    for (sound = 1; sound >= 0; sound--) {
        chip_fresh(&on);
        chip_do(&on, CHIP_OPEN_SESSION, 0, 0, 0);
        if (!sound)
            on.working[0] = 1;
        before = on;
        mark_answers();
        expect(says_just(chip_do_tray(&on, NULL, 0, NULL, 0), CHIP_DONE), "no rows");
        expect(says_just(chip_do_tray(&on, NULL, 0, answers, ORDERS), CHIP_DONE), "no orders");
        expect(says_just(chip_do_tray(&on, orders, 0, NULL, 0), CHIP_DONE), "a row of which none is meant");
        expect(marked_from(0) && same_chip(&on, &before), "an empty tray leaves all as it was");
    }
}

/* Whether a tray of all orders is done, each answered SY_ERR, and the chip as it was. */
static int refuses_each(chip *on)
{
    static chip before;
    size_t n;
    before = *on;
    mark_answers();
    if (!says_just(chip_do_tray(on, orders, ORDERS, answers, ORDERS), CHIP_DONE))
        return 0;
    for (n = 0; n < ORDERS; n++)
        if (!says_just(answers[n], CHIP_SY_ERR))
            return 0;
    return marked_from(ORDERS) && same_chip(on, &before);
}

static void unsound_states_are_told_order_by_order(void)
{
    static chip on;
    chip_answer answer;
    chip_fresh(&on);
    on.working[0] = 1;
    expect(refuses_each(&on), "a working table that is not sound");
    chip_fresh(&on);
    on.kept[CHIP_WORDS - 1] = 1;
    expect(refuses_each(&on), "a kept table that differs");
    chip_fresh(&on);
    on.session.transaction = CHIP_RW;
    expect(refuses_each(&on), "a session that is not sound");
    chip_fresh(&on);
    on.session.opened = 1;
    mark_answers();
    answer = chip_tray(orders, 2, answers, 2, on.session, NULL, 0, NULL, 0);
    expect(answer.refusal == CHIP_DONE && answer.place == CHIP_PLACE_NONE && answer.value == 0 &&
               same_session(&answer.session, &on.session),
           "a tray on no tables");
    expect(says_just(answers[0], CHIP_SY_ERR) && says_just(answers[1], CHIP_SY_ERR) && marked_from(2), "orders on no tables");
}

int main(void)
{
    edition_has_numbers();
    refusals_have_names();
    places_have_names();
    listed_operations_have_names();
    chips_begin_and_begin_again();
    places_are_told();
    short_tables_are_refused();
    cursors_have_names();
    cursors_have_bounds();
    orders_and_results_have_sizes();
    trays_answer_as_calls();
    short_rows_are_refused();
    long_rows_keep_their_rest();
    empty_trays_are_done();
    unsound_states_are_told_order_by_order();
    printf("face: %d failures\n", failures);
    return failures != 0;
}
