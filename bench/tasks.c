#include "tasks.h"

#include "full_chip.h"

#include <stdio.h>
#include <stdlib.h>

void fail(const char *what)
{
    fprintf(stderr, "bench: %s\n", what);
    exit(1);
}

/* ---- the chips to work on ---- */

static void must(void *on, uint32_t op, uint32_t a, uint32_t b, uint32_t c)
{
    call asked = {op, a, b, c};
    subject *made = on;
    model_calls(made, &asked, 1, 1);
    if (made->answers[0].refusal != CHIP_DONE)
        fail("a call that makes the full chip was refused");
}

static subject full_in_rw(void)
{
    subject on = {0};
    full_chip(must, &on);
    return on;
}

static subject full_in_ro(void)
{
    subject on = full_in_rw();
    must(&on, CHIP_END_COMMIT, 0, 0, 0);
    must(&on, CHIP_START_RO, 0, 0, 0);
    for (uint32_t m = 0; m < CHIP_MODELS; m++)
        must(&on, CHIP_RO_ACCESS, m, 0, 0);
    return on;
}

static subject fresh(void)
{
    return (subject){0};
}

/* No type has a fourth attribute, so this value of the last instance must be 0. */
#define LAST_VALUE (CHIP_INSTANCE_AT(CHIP_INSTANCES) - 1)

static subject unsound_at_end_in_rw(void)
{
    subject on = full_in_rw();
    on.chip.kept[LAST_VALUE] = 1;
    return on;
}

static subject unsound_at_end_in_ro(void)
{
    subject on = full_in_ro();
    on.chip.working[LAST_VALUE] = on.chip.kept[LAST_VALUE] = 1;
    return on;
}

/* ---- the rows ---- */

/* Instance 122 is a plate, 123 a cavity of another model than that of plate 2, 124 an assembly, whose reference leads to an
 * item, two types above a plate, 127 a repair that none refers to. The cursors are 0, so what is made again in the last entry
 * is found at the end of a whole round. */
const task tasks[] = {
    {"get, in RO", full_in_ro, CHIP_DONE, 1, {{CHIP_GET, 122, 2, 0}}},
    {"get, in RW", full_in_rw, CHIP_DONE, 1, {{CHIP_GET, 122, 2, 0}}},
    {"test, in RO", full_in_ro, CHIP_DONE, 1, {{CHIP_TEST, 122, 2, 0}}},
    {"test, in RW", full_in_rw, CHIP_DONE, 1, {{CHIP_TEST, 122, 2, 0}}},
    {"put of a number", full_in_rw, CHIP_DONE, 1, {{CHIP_PUT, 122, 2, 77}}},
    {"put of a reference to another model", full_in_rw, CHIP_DONE, 1, {{CHIP_PUT, 123, 2, 2}}},
    {"put of a reference to a type two below", full_in_rw, CHIP_DONE, 1, {{CHIP_PUT, 124, 1, 2}}},
    {"delete, create instance", full_in_rw, CHIP_DONE, 2,
     {{CHIP_DELETE_INSTANCE, 127, 0, 0}, {CHIP_CREATE_INSTANCE, 0, 7, 0}}},
    {"delete, create, access model", full_in_rw, CHIP_DONE, 3,
     {{CHIP_DELETE_MODEL, 63, 0, 0}, {CHIP_CREATE_MODEL, 7, 2, NAME_OF(63)}, {CHIP_RW_ACCESS, 63, 0, 0}}},
    {"remove, add model", full_in_rw, CHIP_DONE, 2, {{CHIP_REMOVE_MODEL, 14, 62, 0}, {CHIP_ADD_MODEL, 14, 62, 0}}},
    {"commit", full_in_rw, CHIP_DONE, 1, {{CHIP_COMMIT, 0, 0, 0}}},
    {"abort", full_in_rw, CHIP_DONE, 1, {{CHIP_ABORT, 0, 0, 0}}},
    {"subtype test, in RO", full_in_ro, CHIP_DONE, 1, {{CHIP_SUBTYPE_TEST, 3, 0, 0}}},
    {"subtype test, in RW", full_in_rw, CHIP_DONE, 1, {{CHIP_SUBTYPE_TEST, 3, 0, 0}}},
    {"FN_NAVL, in RO", full_in_ro, CHIP_FN_NAVL, 1, {{14, 0, 0, 0}}},
    {"FN_NAVL, in RW", full_in_rw, CHIP_FN_NAVL, 1, {{14, 0, 0, 0}}},
    {"EI_NEXS, in RO", full_in_ro, CHIP_EI_NEXS, 1, {{CHIP_GET, 128, 0, 0}}},
    {"EI_NEXS, in RW", full_in_rw, CHIP_EI_NEXS, 1, {{CHIP_GET, 128, 0, 0}}},
    {"SY_ERR in the last value, in RO", unsound_at_end_in_ro, CHIP_SY_ERR, 1, {{CHIP_GET, 122, 2, 0}}},
    {"SY_ERR in the last kept value, in RW", unsound_at_end_in_rw, CHIP_SY_ERR, 1, {{CHIP_GET, 122, 2, 0}}},
    {"open, close session, fresh", fresh, CHIP_DONE, 2, {{CHIP_OPEN_SESSION, 0, 0, 0}, {CHIP_CLOSE_SESSION, 0, 0, 0}}},
};

const size_t task_count = sizeof tasks / sizeof *tasks;

/* Attribute 0 of every type is a number. */
const task tray_tasks[] = {
    {"get, in RO", full_in_ro, CHIP_DONE, 1, {{CHIP_GET, 0, 0, 0}}},
    {"get, put of a number, test, in RW", full_in_rw, CHIP_DONE, 3,
     {{CHIP_GET, 0, 0, 0}, {CHIP_PUT, 0, 0, 77}, {CHIP_TEST, 0, 0, 0}}},
};

const size_t tray_task_count = sizeof tray_tasks / sizeof *tray_tasks;

void fill_tray(const task *t, call *orders, int count)
{
    for (int n = 0; n < count; n++) {
        orders[n] = t->calls[n % t->count];
        orders[n].a = (uint32_t)n % CHIP_INSTANCES;
    }
}
