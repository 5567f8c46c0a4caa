/* Compares trays with the same orders by single calls: trays [trays] [seed]
 * The library's tray, the same in two parts, and the model's tray must each give what the library's single calls give. */
#include "tray.h"
#include "tray_sights.h"

#include "../compare/arguments.h"
#include "../compare/kinds.h"
#include "../compare/sights.h"
#include "../compare/triples.h"
#include "../compare/walk.h"
#include "../model/model.h"

#include <stdio.h>
#include <stdlib.h>

/* From this many trays on, a run must reach every triple, every sight and every kind of damage. */
#define WHOLE_RUN 20000
#define MOST_DIFFERENCES 5
#define MANY_ORDERS 300

enum { BY_CALLS, LIBRARY, IN_TWO, MODEL, PARTIES };

typedef struct run {
    unsigned long long seed, wanted, trays, orders, damaged, unsound, shorter, equal, longer, walks;
    int differences, strange_answers;
    kind_count *kind; /* of the damage to the state in hand; NULL if none */
    dice dice;
    side walking; /* where the walk is; without the soundness test */
    party parties[PARTIES];
    kinds kinds;
    tray tray;
} run;

/* ---- those who answer ---- */

/* What the request says a tray is. */
static chip_answer by_calls(const chip_order *orders, size_t count, chip_result *answers, size_t places,
                            chip_session session,
                            uint64_t *working, size_t working_words,
                            uint64_t *kept, size_t kept_words)
{
    if (places < count)
        return (chip_answer){CHIP_SY_ERR, CHIP_PLACE_NONE, 0, session};
    for (size_t n = 0; n < count; n++) {
        chip_answer answer = chip_call(orders[n].op, orders[n].a, orders[n].b, orders[n].c, session, working,
                                       working_words, kept, kept_words);
        answers[n] = (chip_result){answer.refusal, answer.place, answer.value};
        session = answer.session;
    }
    return (chip_answer){CHIP_DONE, CHIP_PLACE_NONE, 0, session};
}

/* How many orders the first part of a tray has that is handed over in two. */
static size_t cut;

/* The first part has a row of its own length. One that is refused has no parts. */
static chip_answer in_two(const chip_order *orders, size_t count, chip_result *answers, size_t places,
                          chip_session session,
                          uint64_t *working, size_t working_words,
                          uint64_t *kept, size_t kept_words)
{
    if (cut == 0 || places < count)
        return chip_tray(orders, count, answers, places, session, working, working_words, kept, kept_words);
    chip_answer first = chip_tray(orders, cut, answers, cut, session, working, working_words, kept, kept_words);
    if (first.refusal || first.value || first.place)
        return first;
    return chip_tray(orders + cut, count - cut, answers + cut, places - cut, first.session, working, working_words, kept,
                     kept_words);
}

/* ---- one tray ---- */

static int is_over(const run *r)
{
    return r->trays >= r->wanted || r->differences >= MOST_DIFFERENCES;
}

/* How many of the orders: all, or none where the row is too short. */
static size_t answered(const tray *t)
{
    return t->places < t->count ? 0 : t->count;
}

static void compare_with_calls(run *r, const party *other)
{
    const party *calls = &r->parties[BY_CALLS];
    int untouched = orders_untouched(other, &r->tray);
    if (untouched && same_outcome(calls, other, &r->tray))
        return;
    r->differences++;
    printf("difference %d: seed %llu, tray %llu, walk %llu%s%s\n", r->differences, r->seed, r->trays, r->walks,
           r->kind ? ", damage: " : "", r->kind ? r->kind->kind->name : "");
    if (!untouched)
        printf("  %s changed the orders\n", other->side.name);
    print_outcomes(calls, other, &r->tray);
    fflush(stdout);
}

/* The answers of the single calls. */
static void count_answers(run *r)
{
    const tray *t = &r->tray;
    const chip_result *answers = answers_of(&r->parties[BY_CALLS], t);
    for (size_t n = 0; n < answered(t); n++) {
        if (r->kind)
            count_answer(r->kind, answers[n].refusal);
        if (triple_reached(t->orders[n].op, answers[n].refusal, answers[n].place))
            continue;
        r->strange_answers++;
        printf("not an answer of documents 01 and 02: op %u, refusal %u, place %u\n", (unsigned)t->orders[n].op,
               (unsigned)answers[n].refusal, (unsigned)answers[n].place);
    }
}

static void count_tray(run *r, const state *before)
{
    const tray *t = &r->tray;
    const chip_result *answers = answers_of(&r->parties[BY_CALLS], t);
    int unsound = (r->kind && r->kind->expected == REFUSED) || (answered(t) > 0 && answers[0].refusal == CHIP_SY_ERR);
    r->trays++;
    r->orders += t->count;
    r->damaged += r->kind != NULL;
    r->unsound += (unsigned)unsound;
    r->shorter += t->places < t->count;
    r->equal += t->places == t->count;
    r->longer += t->places > t->count;
    count_answers(r);
    see_tray(&(tray_view){t, answers, answered(t), before, unsound, cut});
}

/* To all parties, each on the same state. */
static void hand_to_all(run *r, const state *before)
{
    cut = any_entry(&r->dice, (uint32_t)r->tray.count + 1);
    for (int p = 0; p < PARTIES; p++)
        hand_over(&r->parties[p], before, &r->tray);
    count_tray(r, before);
    for (int p = BY_CALLS + 1; p < PARTIES; p++)
        compare_with_calls(r, &r->parties[p]);
}

/* ---- which trays ---- */

static size_t any_count(dice *d)
{
    if (one_in(d, 400))
        return MOST_ORDERS;
    switch (below(d, 8)) {
    case 0: return below(d, 2);
    case 1:
    case 2:
    case 3: return below(d, 20);
    default: return below(d, MANY_ORDERS + 1);
    }
}

static size_t any_places(dice *d, size_t count)
{
    switch (below(d, 12)) {
    case 0: return count > 0 ? count - 1 : 0;
    case 1: return below(d, (uint32_t)count + 1);
    case 2: return 0;
    case 3:
    case 4: return count + 1;
    case 5:
    case 6: return count + below(d, MOST_PLACES - MOST_ORDERS + 1);
    default: return count;
    }
}

/* All but the orders. */
static void choose_lengths(run *r)
{
    r->tray.count = any_count(&r->dice);
    r->tray.places = any_places(&r->dice, r->tray.count);
    r->tray.null = one_in(&r->dice, 2);
}

/* Orders beside the walk, which stays where it is. */
static void choose_aside(run *r, walk *w)
{
    for (size_t n = 0; n < r->tray.count; n++)
        r->tray.orders[n] = walk_aside(w, &r->walking.session, working_of(&r->walking));
}

/* The next orders of the walk, which comes to where the tray is to lead. */
static void choose_next(run *r, walk *w)
{
    side *here = &r->walking;
    for (size_t n = 0; n < r->tray.count; n++) {
        call *order = &r->tray.orders[n];
        look(&here->session, working_of(here));
        *order = walk_next(w, &here->session, working_of(here));
        chip_answer answer = ask(here, order);
        see(order, &answer, working_of(here));
    }
}

/* A refused tray leads nowhere. */
static void step(run *r, walk *w)
{
    state here;
    store(&r->walking, &here);
    choose_lengths(r);
    if (r->tray.places < r->tray.count)
        choose_aside(r, w);
    else
        choose_next(r, w);
    hand_to_all(r, &here);
}

/* A tray on a damaged copy of where the walk is. */
static void probe(run *r, walk *w, kind_count *kind)
{
    state s;
    store(&r->walking, &s);
    if (!do_damage(kind->kind, &r->dice, &s))
        return;
    kind->done++;
    r->kind = kind;
    choose_lengths(r);
    choose_aside(r, w);
    hand_to_all(r, &s);
    r->kind = NULL;
}

static void take_walk(run *r)
{
    walk w = walk_from(&r->dice);
    state s;
    r->walks++;
    start_fresh(&r->dice, &s);
    load(&r->walking, &s);
    begin_walk();
    for (uint32_t left = 2 + below(&r->dice, 50); left > 0 && !is_over(r); left--) {
        step(r, &w);
        if (one_in(&r->dice, 2) && !is_over(r))
            probe(r, &w, any_kind(&r->dice, &r->kinds));
    }
}

/* ---- the run ---- */

static int report(const run *r)
{
    printf("seed %llu, trays %llu, orders %llu, walks %llu\n", r->seed, r->trays, r->orders, r->walks);
    printf("rows of answers: %llu too short, %llu as long as the tray, %llu longer\n", r->shorter, r->equal, r->longer);
    printf("trays on damaged states: %llu\n", r->damaged);
    printf("trays on unsound states: %llu\n", r->unsound);
    int whole = r->trays >= WHOLE_RUN;
    int missing = print_triples(whole);
    missing += print_sights(whole);
    missing += print_tray_sights(whole);
    missing += print_kinds(&r->kinds, whole);
    int unexpected = print_unexpected(&r->kinds);
    printf("trays: %d differences\n", r->differences);
    if (r->differences || r->strange_answers || unexpected)
        return EXIT_FAILURE;
    return whole && missing ? EXIT_FAILURE : EXIT_SUCCESS;
}

int main(int count, char **arguments)
{
    static run r;
    if (count > 3) {
        fprintf(stderr, "usage: trays [trays] [seed]\n");
        return 2;
    }
    r.wanted = count > 1 ? number_argument("trays", "trays", arguments[1]) : WHOLE_RUN;
    r.seed = count > 2 ? number_argument("trays", "seed", arguments[2]) : 1;
    r.dice.state = r.seed;
    r.walking = new_side("walk", model_core);
    r.parties[BY_CALLS] = new_party("single calls", by_calls);
    r.parties[LIBRARY] = new_party("library", chip_tray);
    r.parties[IN_TWO] = new_party("library in two parts", in_two);
    r.parties[MODEL] = new_party("model", model_tray);
    r.kinds = all_kinds();
    while (!is_over(&r))
        take_walk(&r);
    return report(&r);
}
