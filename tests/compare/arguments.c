#include "arguments.h"

#include <stdio.h>
#include <stdlib.h>

#define MOST_DIGITS 18

unsigned long long number_argument(const char *program, const char *name, const char *text)
{
    unsigned long long value = 0;
    const char *at = text;
    for (; *at >= '0' && *at <= '9' && at - text < MOST_DIGITS; at++)
        value = 10 * value + (unsigned)(*at - '0');
    if (at == text || *at != '\0') {
        fprintf(stderr, "%s: %s must be a number of 1 to %d digits, not '%s'\n", program, name, MOST_DIGITS, text);
        exit(2);
    }
    return value;
}
