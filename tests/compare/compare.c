/* Compares the library with the model, call by call: compare [calls] [seed]
 * compare places: prints which places each refusal of an operation has. */
#include "arguments.h"
#include "difference.h"
#include "kinds.h"
#include "side.h"
#include "sights.h"
#include "triples.h"
#include "walk.h"

#include "../model/model.h"

#include <stdio.h>
#include <stdlib.h>
#include <string.h>

/* From this many calls on, a run must reach every triple, every sight and every kind of damage. */
#define WHOLE_RUN 1000000
#define MOST_DIFFERENCES 5
#define CALLS_ON_DAMAGED 3

typedef struct pair_of_sides {
    side library, model;
} pair_of_sides;

typedef struct run {
    unsigned long long seed, wanted, calls, damaged, unsound, walks;
    int differences, strange_answers;
    const char *damage; /* done to the state in hand; NULL if none */
    dice dice;
    pair_of_sides walking, probing;
    kinds kinds;
} run;

/* ---- one call ---- */

static void count_difference(run *r)
{
    r->differences++;
    printf("difference %d: seed %llu, call %llu, walk %llu%s%s\n", r->differences, r->seed, r->calls, r->walks,
           r->damage ? ", damage: " : "", r->damage ? r->damage : "");
}

static int is_over(const run *r)
{
    return r->calls >= r->wanted || r->differences >= MOST_DIFFERENCES;
}

static pair_of_sides new_pair(void)
{
    return (pair_of_sides){new_side("library", chip_call), new_side("model", model_call)};
}

/* Both sides go on with the state of the model. */
static void make_equal(pair_of_sides *sides)
{
    state s;
    store(&sides->model, &s);
    load(&sides->library, &s);
    load(&sides->model, &s);
}

static chip_answer ask_both(run *r, pair_of_sides *sides, const call *asked)
{
    chip_answer its = ask(&sides->library, asked);
    chip_answer models = ask(&sides->model, asked);
    r->calls++;
    r->damaged += r->damage != NULL;
    r->unsound += models.refusal == CHIP_SY_ERR;
    if (!agree(&sides->library, &its, &sides->model, &models)) {
        count_difference(r);
        print_call(asked);
        print_difference(&sides->library, &its, &sides->model, &models);
        fflush(stdout);
        make_equal(sides);
    }
    if (!triple_reached(asked->op, models.refusal, models.place)) {
        r->strange_answers++;
        printf("not an answer of documents 01 and 02: op %u, refusal %u, place %u\n", (unsigned)asked->op,
               (unsigned)models.refusal, (unsigned)models.place);
    }
    return models;
}

/* ---- damaged states ---- */

/* Calls on a damaged copy of where the walk is. */
static void probe(run *r, walk *w, kind_count *count)
{
    const side *here = &r->walking.model;
    state s;
    store(here, &s);
    if (!do_damage(count->kind, &r->dice, &s))
        return;
    load(&r->probing.library, &s);
    load(&r->probing.model, &s);
    r->damage = count->kind->name;
    count->done++;
    for (int n = 0; n < CALLS_ON_DAMAGED && !is_over(r); n++) {
        call asked = walk_aside(w, &here->session, working_of(here));
        chip_answer answer = ask_both(r, &r->probing, &asked);
        count_answer(count, answer.refusal);
    }
    r->damage = NULL;
}

/* ---- walks ---- */

static void start(run *r)
{
    state s;
    start_fresh(&r->dice, &s);
    load(&r->walking.library, &s);
    load(&r->walking.model, &s);
}

static void step(run *r, walk *w)
{
    const side *here = &r->walking.model;
    look(&here->session, working_of(here));
    call asked = walk_next(w, &here->session, working_of(here));
    chip_answer answer = ask_both(r, &r->walking, &asked);
    see(&asked, &answer, working_of(here));
}

static void take_walk(run *r)
{
    walk w = walk_from(&r->dice);
    r->walks++;
    start(r);
    begin_walk();
    for (uint32_t left = 200 + below(&r->dice, 5000); left > 0 && !is_over(r); left--) {
        step(r, &w);
        if (one_in(&r->dice, 6) && !is_over(r))
            probe(r, &w, any_kind(&r->dice, &r->kinds));
    }
}

/* ---- the run ---- */

static int report(const run *r)
{
    printf("seed %llu, calls %llu, walks %llu\n", r->seed, r->calls, r->walks);
    printf("calls on damaged states: %llu\n", r->damaged);
    printf("answers SY_ERR: %llu\n", r->unsound);
    int whole = r->calls >= WHOLE_RUN;
    int missing = print_triples(whole);
    missing += print_sights(whole);
    missing += print_kinds(&r->kinds, whole);
    int unexpected = print_unexpected(&r->kinds);
    printf("compare: %d differences\n", r->differences);
    if (r->differences || r->strange_answers || unexpected)
        return EXIT_FAILURE;
    return whole && missing ? EXIT_FAILURE : EXIT_SUCCESS;
}

int main(int count, char **arguments)
{
    static run r;
    if (count > 3) {
        fprintf(stderr, "usage: compare [calls] [seed], or compare places\n");
        return 2;
    }
    if (count == 2 && strcmp(arguments[1], "places") == 0) {
        print_table();
        return 0;
    }
    r.wanted = count > 1 ? number_argument("compare", "calls", arguments[1]) : WHOLE_RUN;
    r.seed = count > 2 ? number_argument("compare", "seed", arguments[2]) : 1;
    r.dice.state = r.seed;
    r.walking = new_pair();
    r.probing = new_pair();
    r.kinds = all_kinds();
    while (!is_over(&r))
        take_walk(&r);
    return report(&r);
}
