/* A full chip as the calls that make it: 64 models, 16 schema instances with every model of their schema, 128 instances
 * with every attribute set, all with read-write access and committed. */
#ifndef FULL_CHIP_H
#define FULL_CHIP_H

#include "../include/chip.h"

/* Spread over the 32 bits, as real names are. */
#define NAME_OF(number) (0x9e3779b1u * ((number) + 1))

/* Is given each call in turn. */
typedef void take(void *on, uint32_t op, uint32_t a, uint32_t b, uint32_t c);

void full_chip(take *each, void *on);

#endif
