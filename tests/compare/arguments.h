/* Numbers on the command line. */
#ifndef ARGUMENTS_H
#define ARGUMENTS_H

/* The number that `text` is; anything else ends the program with a message and status 2. */
unsigned long long number_argument(const char *program, const char *name, const char *text);

#endif
