/* Compares what two sides answered and hold. */
#ifndef DIFFERENCE_H
#define DIFFERENCE_H

#include "side.h"

/* Refusal, value, place, every field of the session and every word of both tables. */
int agree(const side *one, const chip_answer *its, const side *other, const chip_answer *others);

void print_call(const call *asked);

/* Prints what differs. */
void print_difference(const side *one, const chip_answer *its, const side *other, const chip_answer *others);

#endif
