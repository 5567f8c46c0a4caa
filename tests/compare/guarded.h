/* Room that ends where memory must not be touched. */
#ifndef GUARDED_H
#define GUARDED_H

#include <stddef.h>

/* Of a table. */
#define MOST_WORDS 2000

/* The end of a new room of so many bytes. A table or row of n bytes lies n bytes before it; to touch what lies from it on
 * is a fault that ends the program. */
void *guarded_end(size_t bytes);

#endif
