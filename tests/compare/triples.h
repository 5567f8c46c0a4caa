/* Which triples of operation, refusal and place documents 01 and 02 have, and which of them a run has reached. */
#ifndef TRIPLES_H
#define TRIPLES_H

#include <stdint.h>

/* Counts the triple; 0 if they do not have it. */
int triple_reached(uint32_t op, uint32_t refusal, uint32_t place);

/* Prints how many triples were reached and, if asked, the names of the others; returns how many others. */
int print_triples(int names);

/* All of them as the table of docs/CHIP.md. */
void print_table(void);

#endif
