/* Makes and deletes one entry of a kind on a fresh chip, again and again, and counts which numbers were given: no number may
 * be given more often than another by more than one. */
#include "chip.h"

#include <stdio.h>
#include <stdlib.h>

#define ROUNDS 10000

static chip on;

/* The value of a call that must be done. */
static uint32_t must(uint32_t op, uint32_t a, uint32_t b, uint32_t c)
{
    chip_result result = chip_do(&on, op, a, b, c);
    if (result.refusal != CHIP_DONE) {
        printf("spread: %s: %s\n", chip_operation_name(op), chip_refusal_name(result.refusal));
        exit(1);
    }
    return result.value;
}

static void begin(void)
{
    chip_fresh(&on);
    must(CHIP_OPEN_SESSION, 0, 0, 0);
    must(CHIP_OPEN_REPOSITORY, 0, 0, 0);
    must(CHIP_START_RW, 0, 0, 0);
}

static uint32_t model_with_access(void)
{
    uint32_t model = must(CHIP_CREATE_MODEL, 0, 1, 7);
    must(CHIP_RW_ACCESS, model, 0, 0);
    return model;
}

/* Each makes an entry, deletes it and gives its number. */
static uint32_t model_and_back(void)
{
    uint32_t model = model_with_access();
    must(CHIP_DELETE_MODEL, model, 0, 0);
    return model;
}

static uint32_t schema_instance_and_back(void)
{
    uint32_t schema_instance = must(CHIP_CREATE_SCHEMA_INSTANCE, 0, 1, 7);
    must(CHIP_DELETE_SCHEMA_INSTANCE, schema_instance, 0, 0);
    return schema_instance;
}

static uint32_t instance_and_back(void)
{
    uint32_t instance = must(CHIP_CREATE_INSTANCE, 0, CHIP_PLATE, 0);
    must(CHIP_DELETE_INSTANCE, instance, 0, 0);
    return instance;
}

/* Whether they were spread evenly over the places 0 to `places` - 1. */
static int is_spread(const char *kind, uint32_t (*and_back)(void), uint32_t places)
{
    unsigned counts[CHIP_INSTANCES] = {0};
    unsigned least = ROUNDS, most = 0;
    for (int n = 0; n < ROUNDS; n++) {
        uint32_t number = and_back();
        if (number >= places) {
            printf("spread: there is no place %u for %s\n", (unsigned)number, kind);
            return 0;
        }
        counts[number]++;
    }
    for (uint32_t place = 0; place < places; place++) {
        least = counts[place] < least ? counts[place] : least;
        most = counts[place] > most ? counts[place] : most;
    }
    printf("spread: %d,%03d %s over %u places, %u", ROUNDS / 1000, ROUNDS % 1000, kind, (unsigned)places, least);
    if (most > least)
        printf(most == least + 1 ? " or %u" : " to %u", most);
    printf(" each\n");
    return most <= least + 1;
}

int main(void)
{
    int even;
    begin();
    even = is_spread("models", model_and_back, CHIP_MODELS);
    begin();
    even &= is_spread("schema instances", schema_instance_and_back, CHIP_SCHEMA_INSTANCES);
    begin();
    model_with_access();
    even &= is_spread("instances", instance_and_back, CHIP_INSTANCES);
    return !even;
}
