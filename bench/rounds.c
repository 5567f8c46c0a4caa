#include "rounds.h"

#define JOINED(one, other) one##_##other
#define NAMED(one, other) JOINED(one, other)

chip_function CALL;
chip_function CORE;
tray_function TRAY;

static chip_result taken(subject *on, const chip_answer *answer)
{
    on->chip.session = answer->session;
    return (chip_result){answer->refusal, answer->place, answer->value};
}

static inline void make_rounds(subject *on, chip_function *function, const call *calls, int count, unsigned long repeats)
{
    for (unsigned long n = 0; n < repeats; n++)
        for (int k = 0; k < count; k++) {
            chip_answer answer = function(calls[k].op, calls[k].a, calls[k].b, calls[k].c, on->chip.session,
                                          on->chip.working, CHIP_WORDS, on->chip.kept, CHIP_WORDS);
            on->answers[k] = taken(on, &answer);
        }
}

void NAMED(SIDE, calls)(subject *on, const call *calls, int count, unsigned long repeats)
{
    make_rounds(on, CALL, calls, count, repeats);
}

void NAMED(SIDE, cores)(subject *on, const call *calls, int count, unsigned long repeats)
{
    make_rounds(on, CORE, calls, count, repeats);
}

void NAMED(SIDE, trays)(subject *on, const call *calls, int count, unsigned long repeats)
{
    for (unsigned long n = 0; n < repeats; n++) {
        chip_answer answer = TRAY(calls, (size_t)count, on->answers, MOST_CALLS, on->chip.session, on->chip.working,
                                  CHIP_WORDS, on->chip.kept, CHIP_WORDS);
        on->own = taken(on, &answer);
    }
}
