/* The dictionary of document 01. */
#ifndef DICTIONARY_H
#define DICTIONARY_H

#include "../../include/chip.h"

/* No type has more than one reference. Where there is none, the place is one whose flag no instance has. */
#define NO_REFERENCE CHIP_ATTRIBUTES

typedef struct entity_type {
    uint8_t schema;
    uint8_t attributes; /* how many, the inherited ones included */
    uint8_t reference;  /* which of them is R t */
    uint8_t target;     /* that t */
    uint16_t above;     /* bit t: the type is a subtype of t */
} entity_type;

static const entity_type dictionary[CHIP_TYPES] = {
    {1, 1, NO_REFERENCE, 0, 0x001}, /* item */
    {1, 2, NO_REFERENCE, 0, 0x003}, /* part */
    {1, 3, NO_REFERENCE, 0, 0x007}, /* plate */
    {1, 3, 2, 2, 0x00b},            /* cavity */
    {1, 2, 1, 0, 0x011},            /* assembly */
    {1, 1, NO_REFERENCE, 0, 0x020}, /* event */
    {1, 3, 1, 1, 0x060},            /* shot_count */
    {1, 2, 1, 1, 0x0a0},            /* repair */
    {2, 1, NO_REFERENCE, 0, 0x100}, /* reading */
    {2, 2, 1, 8, 0x300},            /* wear */
};

#endif
