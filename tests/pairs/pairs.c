/* Operation 46 on every pair of types, and on pairs with a number that is no type; operation 44 on every reference with an
 * instance of every type. The answers are compared with what a climb from a type to its parent gives, over the dictionary of
 * the manual. */
#include "chip.h"

#include <stdio.h>
#include <stdlib.h>
#include <string.h>

/* How many differences are printed. */
#define SHOWN 10

/* ---- the dictionary, from the table in docs/CHIP.md ---- */

/* In place of a parent: no type has this number. */
#define NO_PARENT CHIP_TYPES

static const struct {
    uint32_t parent;
    uint32_t schema;
} types[CHIP_TYPES] = {
    {NO_PARENT, 1},    /* item */
    {CHIP_ITEM, 1},    /* part */
    {CHIP_PART, 1},    /* plate */
    {CHIP_PART, 1},    /* cavity */
    {CHIP_ITEM, 1},    /* assembly */
    {NO_PARENT, 1},    /* event */
    {CHIP_EVENT, 1},   /* shot_count */
    {CHIP_EVENT, 1},   /* repair */
    {NO_PARENT, 2},    /* reading */
    {CHIP_READING, 2}, /* wear */
};

static const struct {
    uint32_t type;
    uint32_t attribute;
    uint32_t target;
} references[] = {
    {CHIP_CAVITY, 2, CHIP_PLATE}, {CHIP_ASSEMBLY, 1, CHIP_ITEM}, {CHIP_SHOT_COUNT, 1, CHIP_PART},
    {CHIP_REPAIR, 1, CHIP_PART},  {CHIP_WEAR, 1, CHIP_READING},
};
#define REFERENCES (sizeof references / sizeof *references)

/* Whether going up from the one leads to the other. */
static int is_subtype(uint32_t type, uint32_t other)
{
    while (type != other && type != NO_PARENT)
        type = types[type].parent;
    return type == other;
}

/* ---- a chip that is asked ---- */

static chip on;
static unsigned differences;

static void show(const char *what, chip_result result)
{
    printf("%s %s, place %u, value %u", what, chip_refusal_name(result.refusal), (unsigned)result.place,
           (unsigned)result.value);
}

/* Asks and compares; gives what was answered. */
static chip_result expect(uint32_t op, uint32_t a, uint32_t b, uint32_t c, chip_result wanted)
{
    chip_result result = chip_do(&on, op, a, b, c);
    if (result.refusal == wanted.refusal && result.place == wanted.place && result.value == wanted.value)
        return result;
    if (++differences <= SHOWN) {
        printf("pairs: %u(%u, %u, %u)", (unsigned)op, (unsigned)a, (unsigned)b, (unsigned)c);
        show(" gives", result);
        show("; expected is", wanted);
        printf("\n");
    }
    return result;
}

/* The value of a call that must be done. */
static uint32_t must(uint32_t op, uint32_t a, uint32_t b, uint32_t c)
{
    chip_result result = chip_do(&on, op, a, b, c);
    if (result.refusal != CHIP_DONE) {
        printf("pairs: %s: %s\n", chip_operation_name(op), chip_refusal_name(result.refusal));
        exit(1);
    }
    return result.value;
}

static void expect_tables(const chip *wanted, const char *when)
{
    if (memcmp(on.working, wanted->working, sizeof on.working) == 0 &&
        memcmp(on.kept, wanted->kept, sizeof on.kept) == 0)
        return;
    if (++differences <= SHOWN)
        printf("pairs: a word is not as before, %s\n", when);
}

/* ---- 46 ---- */

/* Asked about beside 0 to 99. Some are like a type in their low bits, and of some ten times the number is close to 0 modulo
 * 2^32: they could lead into a table of rows of ten. */
static const uint32_t large[] = {100,        127,        128,        255,        256,        265,        65535,
                                 65536,      65545,      0x19999999, 0x1999999a, 0x7fffffff, 0x80000000, 0x80000009,
                                 0x9999999a, 0xfffffff6, 0xffffffff};
#define SMALL 100
#define NUMBERS (SMALL + sizeof large / sizeof *large)

static uint32_t number(uint32_t n)
{
    return n < SMALL ? n : large[n - SMALL];
}

static chip_result wanted_of_test(uint32_t a, uint32_t b)
{
    if (a >= CHIP_TYPES)
        return (chip_result){CHIP_ED_NDEF, CHIP_PLACE_A, 0};
    if (b >= CHIP_TYPES)
        return (chip_result){CHIP_ED_NDEF, CHIP_PLACE_B, 0};
    if (types[a].schema != types[b].schema)
        return (chip_result){CHIP_ED_NDEQ, CHIP_PLACE_B, 0};
    return (chip_result){CHIP_DONE, CHIP_PLACE_NONE, (uint32_t)is_subtype(a, b)};
}

static void test_pairs(void)
{
    unsigned of_types = 0, others = 0, subtypes = 0;
    chip_fresh(&on);
    must(CHIP_OPEN_SESSION, 0, 0, 0);
    for (uint32_t n = 0; n < NUMBERS; n++)
        for (uint32_t m = 0; m < NUMBERS; m++) {
            uint32_t a = number(n), b = number(m);
            subtypes += expect(CHIP_SUBTYPE_TEST, a, b, 0, wanted_of_test(a, b)).value;
            if (a < CHIP_TYPES && b < CHIP_TYPES)
                of_types++;
            else
                others++;
        }
    printf("pairs: 46 on %u pairs of types, %u subtypes, and on %u other pairs\n", of_types, subtypes, others);
}

/* ---- 44 ---- */

/* The model of each schema. */
static uint32_t models[3];

static uint32_t made(uint32_t type)
{
    return must(CHIP_CREATE_INSTANCE, models[types[type].schema], type, 0);
}

static void make_models(void)
{
    chip_fresh(&on);
    must(CHIP_OPEN_SESSION, 0, 0, 0);
    must(CHIP_OPEN_REPOSITORY, 0, 0, 0);
    must(CHIP_START_RW, 0, 0, 0);
    for (uint32_t schema = 1; schema <= 2; schema++) {
        models[schema] = must(CHIP_CREATE_MODEL, 0, schema, schema);
        must(CHIP_RW_ACCESS, models[schema], 0, 0);
    }
}

/* Where the type is right, instance and value have one model, and nothing else is to be refused. Whether it was done. */
static int put(uint32_t instance, uint32_t attribute, uint32_t value, int is_right)
{
    static chip before;
    chip_result done = {CHIP_DONE, CHIP_PLACE_NONE, 0};
    chip_result wrong_type = {CHIP_VT_NVLD, CHIP_PLACE_C, 0};
    chip_result holds = {CHIP_DONE, CHIP_PLACE_NONE, value};
    chip_result unset = {CHIP_VA_NSET, CHIP_PLACE_B, 0};
    chip_result result;
    before = on;
    result = expect(CHIP_PUT, instance, attribute, value, is_right ? done : wrong_type);
    if (!is_right)
        expect_tables(&before, "after a put of a wrong type");
    expect(CHIP_GET, instance, attribute, 0, is_right ? holds : unset);
    expect(CHIP_UNSET, instance, attribute, 0, done);
    expect_tables(&before, "after a put and its unset");
    on = before;
    return result.refusal == CHIP_DONE;
}

static void test_puts(void)
{
    uint32_t holders[REFERENCES], values[CHIP_TYPES];
    unsigned puts = 0, done = 0;
    make_models();
    for (size_t r = 0; r < REFERENCES; r++)
        holders[r] = made(references[r].type);
    for (uint32_t type = 0; type < CHIP_TYPES; type++)
        values[type] = made(type);
    for (size_t r = 0; r < REFERENCES; r++)
        for (uint32_t type = 0; type < CHIP_TYPES; type++) {
            int is_right = is_subtype(type, references[r].target);
            done += (unsigned)put(holders[r], references[r].attribute, values[type], is_right);
            puts++;
        }
    printf("pairs: 44 on %u pairs of a reference and a type, %u done\n", puts, done);
}

int main(void)
{
    test_pairs();
    test_puts();
    printf("pairs: %u differences\n", differences);
    return differences != 0;
}
