/* The three tables of entries of documents 01 and 02. */
#ifndef ENTRY_KINDS_H
#define ENTRY_KINDS_H

#include "../../include/chip.h"

enum { MODELS, SCHEMA_INSTANCES, INSTANCES, ENTRY_KINDS };

typedef struct entry_kind {
    uint32_t at;     /* the first word of entry 0 */
    uint32_t stride; /* words of an entry */
    uint32_t count;
    uint32_t cursor; /* the word with the number that is tried first */
} entry_kind;

static const entry_kind entry_kinds[ENTRY_KINDS] = {
    [MODELS] = {CHIP_MODEL_AT(0), 1, CHIP_MODELS, CHIP_MODEL_CURSOR},
    [SCHEMA_INSTANCES] = {CHIP_SCHEMA_INSTANCE_AT(0), 2, CHIP_SCHEMA_INSTANCES, CHIP_SCHEMA_INSTANCE_CURSOR},
    [INSTANCES] = {CHIP_INSTANCE_AT(0), 5, CHIP_INSTANCES, CHIP_INSTANCE_CURSOR},
};

#endif
