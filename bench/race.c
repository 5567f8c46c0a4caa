#include "race.h"

#include <string.h>
#include <time.h>

/* Rounds are short and the runners take turns, so that what else the machine does harms all alike; the best counts. */
#define ROUNDS 300
#define ROUND_NS 30000

/* Where a chip stands in a page, in bytes: one place alone can double a row by chance, so the best of several counts. */
static const size_t places[] = {0, 64, 832, 2112, 3392};
#define PLACES (sizeof places / sizeof *places)
#define PAGE 4096

typedef struct room {
    _Alignas(PAGE) unsigned char bytes[sizeof(subject) + PAGE];
} room;

static room rooms[MOST_RUNNERS];

static uint64_t now_ns(void)
{
    struct timespec time;
    timespec_get(&time, TIME_UTC);
    return (uint64_t)time.tv_sec * 1000000000 + (uint64_t)time.tv_nsec;
}

static uint64_t time_round(runner *r, const call *calls, int count)
{
    uint64_t start = now_ns();
    r->rounds(r->subject, calls, count, r->repeats);
    return now_ns() - start;
}

static void time_best(runner *r, const call *calls, int count)
{
    double ns = (double)time_round(r, calls, count) / ((double)r->repeats * count);
    if (r->best_ns == 0 || ns < r->best_ns)
        r->best_ns = ns;
}

static void find_repeats(runner *r, const call *calls, int count)
{
    r->repeats = 1;
    while (time_round(r, calls, count) < ROUND_NS)
        r->repeats *= 2;
}

static int same_subject(const subject *one, const subject *other, int count)
{
    return memcmp(one->answers, other->answers, (size_t)count * sizeof *one->answers) == 0 &&
           memcmp(&one->own, &other->own, sizeof one->own) == 0 &&
           same_session(&one->chip.session, &other->chip.session) &&
           memcmp(one->chip.working, other->chip.working, sizeof one->chip.working) == 0 &&
           memcmp(one->chip.kept, other->chip.kept, sizeof one->chip.kept) == 0;
}

/* Wrong answers are not worth timing. Made twice, as the second time may begin elsewhere. */
static void check_answers(const task *t, const call *calls, int count, runner *runners, int taking_part)
{
    for (int twice = 0; twice < 2; twice++)
        for (int n = 0; n < taking_part; n++) {
            const subject *its = runners[n].subject;
            runners[n].rounds(runners[n].subject, calls, count, 1);
            for (int k = 0; k < count; k++)
                if (its->answers[k].refusal != t->refusal)
                    fail(t->what);
            if (!same_subject(runners[0].subject, its, count))
                fail(t->what);
        }
}

void race(const task *t, const call *calls, int count, runner *runners, int taking_part)
{
    for (int n = 0; n < taking_part; n++)
        runners[n].best_ns = 0;
    for (size_t place = 0; place < PLACES; place++) {
        subject start = t->start();
        for (int n = 0; n < taking_part; n++) {
            runners[n].subject = (subject *)(void *)(rooms[n].bytes + places[place]);
            *runners[n].subject = start;
        }
        check_answers(t, calls, count, runners, taking_part);
        for (int n = 0; n < taking_part; n++)
            find_repeats(&runners[n], calls, count);
        for (int round = 0; round < ROUNDS; round++)
            for (int n = 0; n < taking_part; n++)
                time_best(&runners[n], calls, count);
    }
}
