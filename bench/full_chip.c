#include "full_chip.h"

#include "../tests/model/dictionary.h"

/* Three models of schema 1 to one of schema 2, and so the schema instances. */
static uint32_t schema_of(uint32_t number)
{
    return number % 4 == 3 ? 2 : 1;
}

static void make_models_and_sets(take *each, void *on)
{
    for (uint32_t m = 0; m < CHIP_MODELS; m++) {
        each(on, CHIP_CREATE_MODEL, m % CHIP_REPOSITORIES, schema_of(m), NAME_OF(m));
        each(on, CHIP_RW_ACCESS, m, 0, 0);
    }
    for (uint32_t s = 0; s < CHIP_SCHEMA_INSTANCES; s++) {
        each(on, CHIP_CREATE_SCHEMA_INSTANCE, s % CHIP_REPOSITORIES, schema_of(s), NAME_OF(s));
        for (uint32_t m = 0; m < CHIP_MODELS; m++)
            if (schema_of(m) == schema_of(s))
                each(on, CHIP_ADD_MODEL, s, m, 0);
    }
}

/* Instance i is of type i % 10, and each reference names one of the first ten. */
static void make_instances(take *each, void *on)
{
    for (uint32_t i = 0; i < CHIP_INSTANCES; i++) {
        uint32_t model = i % CHIP_MODELS;
        while (schema_of(model) != dictionary[i % CHIP_TYPES].schema)
            model = (model + 1) % CHIP_MODELS;
        each(on, CHIP_CREATE_INSTANCE, model, i % CHIP_TYPES, 0);
    }
    for (uint32_t i = 0; i < CHIP_INSTANCES; i++) {
        const entity_type *type = &dictionary[i % CHIP_TYPES];
        for (uint32_t k = 0; k < type->attributes; k++)
            each(on, CHIP_PUT, i, k, k == type->reference ? type->target : 1000 * i + k);
    }
}

void full_chip(take *each, void *on)
{
    each(on, CHIP_OPEN_SESSION, 0, 0, 0);
    for (uint32_t r = 0; r < CHIP_REPOSITORIES; r++)
        each(on, CHIP_OPEN_REPOSITORY, r, 0, 0);
    each(on, CHIP_START_RW, 0, 0, 0);
    make_models_and_sets(each, on);
    make_instances(each, on);
    each(on, CHIP_COMMIT, 0, 0, 0);
}
