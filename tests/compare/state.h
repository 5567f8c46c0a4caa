/* A whole state of the chip, as it may be damaged before both sides get it. */
#ifndef STATE_H
#define STATE_H

#include "call.h"

typedef struct state {
    chip_session session;
    size_t working_words, kept_words; /* up to MOST_WORDS; what lies from CHIP_WORDS on is of no interest here */
    uint64_t working[CHIP_WORDS], kept[CHIP_WORDS];
} state;

#endif
