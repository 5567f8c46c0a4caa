#include "tray.h"

#include "../compare/difference.h"
#include "../compare/guarded.h"

#include <stdio.h>
#include <string.h>

party new_party(const char *name, tray_function *function)
{
    return (party){.side = new_side(name, NULL),
                   .function = function,
                   .orders_end = guarded_end(MOST_ORDERS * sizeof(chip_order)),
                   .answers_end = guarded_end(MOST_PLACES * sizeof(chip_result))};
}

static chip_order *orders_of(const party *p, const tray *t)
{
    return p->orders_end - t->count;
}

chip_result *answers_of(const party *p, const tray *t)
{
    return p->answers_end - t->places;
}

/* What is handed over as the place of something so long. */
static void *place_of(const tray *t, void *at, size_t length)
{
    return t->null && length == 0 ? NULL : at;
}

void hand_over(party *p, const state *before, const tray *t)
{
    side *s = &p->side;
    chip_order *orders = orders_of(p, t);
    chip_result *answers = answers_of(p, t);
    load(s, before);
    memcpy(orders, t->orders, t->count * sizeof *orders);
    blank_row(answers, t->places);
    p->own = p->function(place_of(t, orders, t->count), t->count, place_of(t, answers, t->places), t->places, s->session,
                         place_of(t, working_of(s), s->working_words), s->working_words,
                         place_of(t, kept_of(s), s->kept_words), s->kept_words);
    s->session = p->own.session;
}

int orders_untouched(const party *p, const tray *t)
{
    return memcmp(orders_of(p, t), t->orders, t->count * sizeof *t->orders) == 0;
}

/* The first place at which the rows differ; how many there are if none. */
static size_t first_difference(const party *one, const party *other, const tray *t)
{
    size_t n = 0;
    while (n < t->places && memcmp(answers_of(one, t) + n, answers_of(other, t) + n, sizeof(chip_result)) == 0)
        n++;
    return n;
}

int same_outcome(const party *one, const party *other, const tray *t)
{
    return first_difference(one, other, t) == t->places && agree(&one->side, &one->own, &other->side, &other->own);
}

static void print_answer(const party *p, const chip_result *answer)
{
    printf("  %s: refusal %u, value %u, place %u\n", p->side.name, (unsigned)answer->refusal, (unsigned)answer->value,
           (unsigned)answer->place);
}

void print_outcomes(const party *one, const party *other, const tray *t)
{
    size_t n = first_difference(one, other, t);
    printf("  %zu orders, a row of %zu places\n", t->count, t->places);
    if (n < t->places) {
        printf("  place %zu of the row%s\n", n, n < t->count ? ", the answer to" : ", which has no order");
        if (n < t->count)
            print_call(&t->orders[n]);
        print_answer(one, answers_of(one, t) + n);
        print_answer(other, answers_of(other, t) + n);
    }
    print_difference(&one->side, &one->own, &other->side, &other->own);
}
